"""A logged-in connection as the probes use it: requests, attentions, and the messages that come."""

import re
import ssl
import struct
from dataclasses import dataclass

from . import tokens, wire
from .link import Link, Silent
from .wire import ATTENTION, BATCH, LAST, LOGIN7, MANAGER, PRELOGIN, RESET, RPC

# How long nothing may come before a probe says that nothing more comes, in seconds.
QUIET = 1.0
# ENVCHANGEs that begin a transaction, and those that end one (MS-TDS 2.2.7.9).
BEGINS, ENDS, RESET_DONE = (b"\x08", b"\x0b"), (b"\x09", b"\x0a", b"\x0c", b"\x11"), b"\x12"
# The line of the one that tells the packets' size.
SIZED = re.compile(r"env 4 '(\d{3,5})' .*")


class Refused(Exception):
    """The login failed, or can't be done as the user wants it."""


@dataclass
class Server:
    """Where the server is, and how to log in."""

    host: str
    port: int
    user: str
    password: str
    database: str
    encrypts_all: bool = False
    is_clear: bool = False
    context: ssl.SSLContext = None
    patience: float = 10.0


class Message:
    """A message of the server: its data, its tokens, and whether its end came."""

    def __init__(self, data, is_whole):
        self.data, self.is_whole = data, is_whole
        read = tokens.Tokens(data)
        self.tokens, self.stopped = read.found, read.stopped

    @property
    def acknowledges(self):
        return any(it.acknowledges for it in self.tokens)

    @property
    def lines(self):
        stopped = [self.stopped] if self.stopped else []
        return [it.line for it in self.tokens] + stopped + ([] if self.is_whole else ["no end of message"])

    def of(self, kind):
        return [it for it in self.tokens if it.kind == kind]


class Session:
    def __init__(self, server, events, features=b""):
        self.server, self.descriptor, self.size, self.is_full_reset = server, 0, wire.SIZE, False
        self.link = Link(server.host, server.port, server.patience, events)
        self.encryption = self.agree()
        self.login = self.log_in(features)

    # Login.

    def agree(self):
        """PRELOGIN, and the handshake where both want one: what is encrypted."""
        wanted = wire.NOT_SUP if self.server.is_clear else wire.ON if self.server.encrypts_all else wire.OFF
        self.link.send(b"".join(wire.packets(PRELOGIN, wire.prelogin(wanted))), "prelogin")
        answered = wire.prelogin_encryption(self.collect()[0])
        if self.server.is_clear:
            if answered == wire.REQ:
                raise Refused("the server demands encryption: leave --clear out")
            return "none"
        if answered == wire.NOT_SUP:
            raise Refused("the server doesn't encrypt: with --clear the password goes to it in clear")
        self.link.start_tls(self.server.context, self.server.host)
        return "login" if answered == wire.OFF else "all"

    def log_in(self, features):
        """LOGIN7 and its answer. The recording has it as of another password."""
        it = self.server
        sent, shown = (b"".join(wire.packets(LOGIN7, wire.login7(it.user, password, it.database, it.host, features)))
                       for password in (it.password, wire.HIDDEN))
        self.link.send(sent, "login, its password hidden", shown)
        if self.encryption == "login":
            self.link.stop_tls()
        answer = self.hear()
        if not answer.of(tokens.LOGINACK):
            raise Refused("the login failed: " + "; ".join(answer.lines))
        return answer

    # Requests.

    def send(self, kind, data, reset=0, behind=b"", last=LAST):
        """Sends a message in one write, with a reset's bit on its first packet, and these bytes behind it."""
        cut = wire.packets(kind, data, reset, last, self.size)
        if reset:
            self.is_full_reset = reset == RESET
        self.link.send(b"".join(cut) + behind, wire.NAMES[kind] + (" and more" if behind else ""))

    def names(self, reset):
        """The descriptor that a request names: a full reset ends the transaction before it runs."""
        return 0 if reset == RESET else self.descriptor

    def batch(self, words, reset=0, behind=b"", last=LAST):
        self.send(BATCH, wire.batch(words, self.names(reset)), reset, behind, last)
        self.link.events[-1]["line"] += f": {words[:120]}"

    def manage(self, data, reset=0, behind=b""):
        self.send(MANAGER, data, reset, behind)

    def call(self, *calls, reset=0, behind=b""):
        self.send(RPC, wire.rpc(calls, self.names(reset)), reset, behind)

    def attention(self):
        self.link.send(wire.packet(ATTENTION, b""), "attention")

    # What comes.

    def collect(self, seconds=None, most=None):
        """The packets up to a message's end, to silence, or to so many: their data, whether the end came, and
        the event of the last one."""
        data, status, event, count = bytearray(), 0, None, 0
        while not status & LAST and count != most:
            try:
                _, status, more, event = self.link.packet(seconds)
            except Silent:
                if not count:
                    raise
                break
            data += more
            count += 1
        return bytes(data), bool(status & LAST), event

    def hear(self, seconds=None, most=None):
        """The next message, or its first packets."""
        data, is_whole, event = self.collect(seconds, most)
        message = Message(data, is_whole)
        event["tokens"] = message.lines
        self.follow(message)
        return message

    def follow(self, message):
        """Takes over what a message says of the transaction and of the packets' size."""
        for it in message.of(tokens.ENVCHANGE):
            kind, new = it.data[3:4], it.data[5:5 + int.from_bytes(it.data[4:5], "little")]
            if kind in BEGINS and len(new) == 8:
                self.descriptor = struct.unpack("<Q", new)[0]
            elif kind in ENDS or kind == RESET_DONE and self.is_full_reset:
                self.descriptor = 0
            elif size := SIZED.fullmatch(it.line):
                self.size = int(size[1])

    def run(self, words, reset=0):
        """A batch and its answer."""
        self.batch(words, reset)
        return self.hear()

    def acknowledged(self):
        """All messages up to the one that acknowledges an attention, or to silence."""
        heard = []
        try:
            while not heard or not heard[-1].acknowledges:
                heard.append(self.hear())
        except Silent:
            self.link.keep("note", "no acknowledgement came")
        return heard

    def rest(self):
        """All that still comes, until nothing does for a while."""
        heard = []
        try:
            while True:
                heard.append(self.hear(QUIET))
        except Silent:
            return heard

    def close(self):
        self.link.close()
