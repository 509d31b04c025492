//! Why a call was not done.

use std::error::Error;
use std::fmt;

/// Why a call was not done, or what the peer did wrong.
#[derive(Clone, Copy, PartialEq, Eq, Debug)]
pub enum Fault {
    /// A text, a packet size or an isolation level is out of range.
    OutOfRange,
    /// Memory is wanted: call again once there is some.
    NoMemory,
    /// A request is underway.
    NotIdle,
    /// No request is going out.
    NotSending,
    /// The client is broken.
    Broken,
    /// What was handed in is not one packet of an answer.
    NoPacket,
    /// A packet's header has this fault, 1 to 6.
    Packet(u8),
    /// The data spell no token, for this fault, 1 to 7.
    Token(u8),
    /// The peer broke the protocol by this fault, and the client is broken: 1 to 9; 11 to 14 for bytes that no answer
    /// has; 15 where the answer ended inside a token; 16 where it tells of no reset, and one was asked for.
    Peer(u8),
    /// There is no such lease, ticket or connection.
    NoSuch,
    /// As many connections are there as may be, and none can be lent.
    AllInUse,
    /// The connection isn't idle, or isn't so that this can be done.
    NotNow,
    /// 2^64 - 1 leases, or connections, were given.
    UsedUp,
    /// The libraries answered what this crate does not know.
    Unknown(u8),
}

impl Fault {
    pub(crate) fn of(number: u8) -> Fault {
        match number {
            22 => Fault::NoMemory,
            23 => Fault::OutOfRange,
            24..=26 => Fault::NoPacket,
            31 => Fault::NotIdle,
            32 => Fault::NotSending,
            33 => Fault::Broken,
            41..=46 => Fault::Packet(number - 40),
            51..=57 => Fault::Token(number - 50),
            61..=69 | 71..=76 => Fault::Peer(number - 60),
            _ => Fault::Unknown(number),
        }
    }
}

/// The one table of what each number says; the packages for other languages have the same (tests/versions compares them).
const WORDS: [(u8, &str); 41] = [
    (20, "this is no client, or no walk"),
    (21, "the buffer is too short"),
    (22, "memory, or a number, is used up"),
    (23, "a size, a text, a level or a kind is out of range"),
    (24, "less than a packet is there"),
    (25, "bytes stand behind the packet"),
    (26, "this is no place in these data"),
    (31, "a request is underway"),
    (32, "no request is going out"),
    (33, "the client is broken"),
    (34, "there is no such lease, ticket or connection"),
    (35, "all connections are in use"),
    (36, "not as the connection stands now"),
    (41, "a packet of a type that no packet has"),
    (42, "a packet that goes the other way"),
    (43, "a packet's length is under that of its header"),
    (44, "a packet is longer than the login agreed on"),
    (45, "a packet's status is wrong"),
    (46, "a packet in a message's middle has no data"),
    (51, "a token that the batch language hasn't"),
    (52, "a token is cut off at its packet's end"),
    (53, "a token's length is wrong"),
    (54, "an ENVCHANGE that the batch language hasn't"),
    (55, "a DONE's status is wrong"),
    (56, "a row of the batch language, and no columns are known"),
    (57, "a column that the batch language hasn't"),
    (61, "an answer where nothing was asked"),
    (62, "an answer while the request goes out"),
    (63, "an acknowledgement that nobody asked for"),
    (64, "a transaction's end or begin that can't be"),
    (65, "a reset that nobody asked for"),
    (66, "no final DONE"),
    (67, "tokens behind the final DONE"),
    (68, "data that are no tokens of the batch language"),
    (69, "the connection is lost"),
    (71, "a token that no answer has"),
    (72, "a row, and no columns are known"),
    (73, "a type that no column has"),
    (74, "more columns than there is room for"),
    (75, "the answer ended inside a token"),
    (76, "the request asked for a reset, and its answer tells of none"),
];

impl Fault {
    /// Its number in `mouktelf.h`.
    pub fn number(self) -> u8 {
        match self {
            Fault::NoMemory | Fault::UsedUp => 22,
            Fault::OutOfRange => 23,
            Fault::NoPacket => 24,
            Fault::NotIdle => 31,
            Fault::NotSending => 32,
            Fault::Broken => 33,
            Fault::NoSuch => 34,
            Fault::AllInUse => 35,
            Fault::NotNow => 36,
            Fault::Packet(number) => 40 + number,
            Fault::Token(number) => 50 + number,
            Fault::Peer(number) => 60 + number,
            Fault::Unknown(number) => number,
        }
    }

    /// Whether the peer broke the protocol, or is gone: close the connection.
    pub fn is_peer(self) -> bool {
        matches!(self, Fault::Packet(_) | Fault::Token(_) | Fault::Peer(_))
    }

    pub(crate) fn words(self) -> &'static str {
        WORDS.iter().find(|it| it.0 == self.number()).map_or("see mouktelf.h", |it| it.1)
    }
}

impl fmt::Display for Fault {
    fn fmt(&self, f: &mut fmt::Formatter<'_>) -> fmt::Result {
        write!(f, "fault {}: {}", self.number(), self.words())
    }
}

impl Error for Fault {}
