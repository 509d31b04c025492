//! Makes each call of the crates that may want memory. Where it was refused inside of the call, all
//! is compared with what it was before, and the call is made again: it gives then what it gives with
//! memory. `beside/refuse` refuses each allocation in turn; without that each call gives its line.

mod cores;
mod ends;
mod layers;
mod plays;
mod pools;
pub mod streams;
pub mod tried;

use self::cores::{ClientCall, ServerCall};
use self::ends::EndCall;
use self::layers::{Appended, LayerCall};
use self::plays::PlayCall;
use self::pools::PoolCall;
use self::streams::StreamCall;
use self::tried::{Fault, Tried};
use std::alloc::Global;

/// A call of a crate.
#[derive(Clone, Copy)]
enum Call {
    Layer(LayerCall),
    Client(ClientCall),
    Stream(StreamCall),
    Server(ServerCall),
    Pool(PoolCall),
    End(EndCall),
    Play(PlayCall),
}

/// The calls, by the names that the program takes.
const CALLS: [(&str, Call); 38] = [
    ("PacketReader::new", Call::Layer(LayerCall::NewReader)),
    ("put_packet", Call::Layer(LayerCall::Put(Appended::Packet))),
    (
        "put_sent",
        Call::Layer(LayerCall::Put(Appended::SentPacket)),
    ),
    ("put_token", Call::Layer(LayerCall::Put(Appended::Token))),
    (
        "put_token:in_part",
        Call::Layer(LayerCall::Put(Appended::TokenInPart)),
    ),
    ("TokenRef::own:message", Call::Layer(LayerCall::Own(0))),
    ("TokenRef::own:columns", Call::Layer(LayerCall::Own(1))),
    ("TokenRef::own:row", Call::Layer(LayerCall::Own(2))),
    ("encode", Call::Layer(LayerCall::Put(Appended::Request))),
    ("decode", Call::Layer(LayerCall::Decode)),
    ("Engine::parse", Call::Layer(LayerCall::Parse)),
    ("Engine::step", Call::Layer(LayerCall::Step)),
    ("begin_transaction", Call::Layer(LayerCall::Begin)),
    ("error_token", Call::Layer(LayerCall::Error)),
    ("Client::start", Call::Client(ClientCall::Start)),
    ("Client::send", Call::Client(ClientCall::Send)),
    ("Client::cancel", Call::Client(ClientCall::Cancel)),
    ("Client::take", Call::Client(ClientCall::Take)),
    ("Client::start_message", Call::Stream(StreamCall::Start)),
    ("Client::put", Call::Stream(StreamCall::Put)),
    ("Client::finish", Call::Stream(StreamCall::Finish)),
    ("Server::take", Call::Server(ServerCall::TakeBatch)),
    (
        "Server::take:attention",
        Call::Server(ServerCall::TakeAttention),
    ),
    ("Server::work", Call::Server(ServerCall::Work)),
    ("Pool::lease", Call::Pool(PoolCall::Lease)),
    ("Pool::give_back", Call::Pool(PoolCall::GiveBack)),
    ("Pool::numbers", Call::Pool(PoolCall::Numbers)),
    ("Pool::numbers_at", Call::Pool(PoolCall::NumbersAt)),
    ("ClientEnd::listen", Call::End(EndCall::Listen)),
    ("ServerEnd::serve", Call::End(EndCall::Serve)),
    ("ServerEnd::work", Call::End(EndCall::Work)),
    ("play", Call::Play(PlayCall::Play)),
    ("play_with", Call::Play(PlayCall::PlayWith)),
    ("render", Call::Play(PlayCall::Render)),
    ("read_schedule", Call::Play(PlayCall::ReadSchedule)),
    ("word_bytes", Call::Play(PlayCall::ReadWord)),
    ("read_words", Call::Play(PlayCall::ReadLine)),
    ("MemoryCarrier", Call::Play(PlayCall::Carry)),
];

/// A word is a call's name; `names` puts the names, and `all` makes each call.
pub fn heed(alloc: Global, word: &str, text: &mut String) -> Result<(), Fault> {
    let mut tried = Tried::new(alloc);
    let mut is_known = false;
    for (name, call) in CALLS.iter() {
        if word == "names" {
            text.push_str(name)?;
            text.push_str("\n")?;
            is_known = true;
        } else if word == "all" || word == *name {
            make(alloc, *call, &mut tried)?;
            tried.tell(name, text)?;
            is_known = true;
        }
    }
    if is_known {
        Ok(())
    } else {
        Err(Fault::Unknown)
    }
}

/// Makes a call. One that has nothing which could change is made again here, the others see to it
/// themselves.
fn make(alloc: Global, call: Call, tried: &mut Tried) -> Result<(), Fault> {
    match make_once(alloc, call, tried) {
        Err(Fault::Refused) => {
            tried.refuse(true);
            make_once(alloc, call, tried)
        }
        made => made,
    }
}

fn make_once(alloc: Global, call: Call, tried: &mut Tried) -> Result<(), Fault> {
    match call {
        Call::Layer(call) => layers::call(alloc, call, tried),
        Call::Client(call) => cores::call_client(alloc, call, tried),
        Call::Stream(call) => streams::call(alloc, call, tried),
        Call::Server(call) => cores::call_server(alloc, call, tried),
        Call::Pool(call) => pools::call(alloc, call, tried),
        Call::End(call) => ends::call(alloc, call, tried),
        Call::Play(call) => plays::call(alloc, call, tried),
    }
}
