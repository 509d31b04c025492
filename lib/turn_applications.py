"""Applications before a relay that shares by transactions, each beside a session of its own (turn_sessions), which says
what a server that it has for itself would answer: each answer must be that one, token by token, SESSIONSTATEs too.
"""

import asyncio
import socket
import struct

from peers import ATTENTION, PATIENCE, login, with_features
from turn_sessions import DATABASE, LANGUAGE, LAST, Session, Vices, ends_with
from turn_tokens import (
    ACKNOWLEDGED, BATCH, BY_NAME, CALL, DONE, END, EXECUTE, LOAD, RECOVERY, RESET, RESET_BUT_TRANSACTION, UNPREPARE,
    calls_body, change, done, headers, let_in, packets, text_of, tokens)

# All that another one's session could have left.
EVERYTHING = "get a;get b;get c;get t;get level;get text;where;open;sum b;unlock;hidden"

# A handle that no server gives.
NO_HANDLE = 0x7FFFFFFF
# Where LOGIN7 has the client's locale (MS-TDS 2.2.6.4).
LOCALE = 32


class Wrong(Exception):
    """What an application read isn't what its own server would have said."""


def compared(told):
    """Tokens, without what differs from server to server: a SESSIONSTATE's number, descriptors, handles."""
    forms = {"state": lambda it: ("state", it[1][4:]), "returned": lambda it: it[:1],
             "change": lambda it: it[:2] if it[1] in (8, 9, 10) else it}
    return [forms.get(it[0], lambda it: it)(it) for it in told]


class Application:
    """An application, one call behind another. It asks for session recovery, or shares by sessions. Those of another
    locale share other connections."""

    def __init__(self, port, vices=Vices(), asks=True, brings=b"", locale=0, room=0):
        self.port, self.vices, self.asks, self.brings, self.locale = port, vices, asks, brings, locale
        # How many bytes the system keeps for it at most, about; 0 is as many as are usual.
        self.room = room
        self.own, self.descriptor, self.handles = Session(vices), 0, {}
        # Whether its server tells it SESSIONSTATEs; the connection that answered last, and the newest number on each.
        self.is_told = asks and not brings and not vices.is_silent
        self.process, self.numbers, self.is_named = None, {}, False
        self.trace = []

    async def connect(self):
        link = socket.socket()
        if self.room:
            link.setsockopt(socket.SOL_SOCKET, socket.SO_RCVBUF, self.room)
        link.setblocking(False)
        await asyncio.get_running_loop().sock_connect(link, ("127.0.0.1", self.port))
        self.reader, self.writer = await asyncio.open_connection(sock=link)
        data = bytearray(with_features((RECOVERY, self.brings)) if self.asks else login())
        data[8 + LOCALE] = self.locale
        self.writer.write(data)
        wanted = let_in(DATABASE, LANGUAGE, self.own.initial() if self.is_told else None)
        self.same("login", tokens(await self.message()), tokens(wanted))
        return self

    async def leave(self):
        self.writer.close()
        try:
            await self.writer.wait_closed()
        except OSError:
            pass  # The other end was first.

    async def message(self):
        """The data of the packets up to the end of a message."""
        data, self.is_named = [], False
        while True:
            head = await asyncio.wait_for(self.reader.readexactly(8), PATIENCE)
            size, process = struct.unpack_from(">HH", head, 2)
            # A packet that a relay has written anew has none.
            if process:
                self.is_named, self.process = True, process
            data.append(await asyncio.wait_for(self.reader.readexactly(size - 8), PATIENCE))
            if head[1] & END:
                return b"".join(data)

    async def hear(self):
        """The tokens of an answer, with what it must remember of them."""
        told = tokens(await self.message())
        for it in told:
            if it[0] == "change" and it[1] in (8, 9, 10):
                self.descriptor = int.from_bytes(it[2], "little")
            elif it[0] == "state" and self.is_named:
                number = struct.unpack_from("<I", it[1])[0]
                if number <= self.numbers.get(self.process, -1) and number != LAST:
                    raise Wrong(f"SESSIONSTATE {number} behind {self.numbers} on {self.process}")
                self.numbers[self.process] = number
        return told

    def same(self, what, told, wanted):
        if compared(told) != compared(wanted):
            raise Wrong(f"{what}: told {told[:12]}, wanted {wanted[:12]}, behind {self.trace[-8:]}")
        # A handle's number is another one than at a server of its own.
        given, own = ([it[1] for it in those if it[0] == "returned"] for those in (told, wanted))
        self.handles.update(zip(own, given))

    def news(self):
        return self.own.news() if self.is_told else b""

    def send(self, kind, data, status=END):
        """Asks, with a reset of its own session where it asks for one: gives what that is told."""
        self.writer.write(self.begins(kind, data, status))
        return change(18, b"") if status & (RESET | RESET_BUT_TRANSACTION) else b""

    def begins(self, kind, data, status=END):
        """The same, but for what goes out: gives that."""
        resets = status & (RESET | RESET_BUT_TRANSACTION)
        if resets:
            self.own.reset(resets == RESET or not self.own.descriptor)
            self.descriptor = self.descriptor if self.own.descriptor else 0
            self.handles = {}
        return packets(kind, data if kind == LOAD else headers(self.descriptor) + data, status)

    async def exchange(self, what, kind, data, parts, end, status=END):
        """Asks, and is answered what its own session answers to that: its parts, its news, and this end."""
        self.trace.append(what)
        first = self.send(kind, data, status)
        told = await self.hear()
        self.same(what, told, tokens(first + b"".join(parts) + self.news() + end))
        return told

    async def ask(self, text, status=END):
        parts = self.own.batch(text)
        return await self.exchange((text, status), BATCH, text_of(text), parts, ends_with("batch"), status)

    async def call(self, *calls):
        real = [(name, self.real(value) if BY_NAME.get(name, name) in (EXECUTE, UNPREPARE) else value)
                for name, value in calls]
        return await self.exchange(calls, CALL, calls_body(real), self.own.calls(calls), ends_with("calls"))

    def real(self, handle):
        """The number that its connection's server gave for this handle, where it is open."""
        return self.handles[handle] if handle in self.own.handles else NO_HANDLE

    async def load(self, count):
        data = bytes(4 * count)
        return await self.exchange("load", LOAD, data, self.own.load(data), ends_with("load", data))

    async def cancels(self):
        """Cancels what it has asked, or nothing, and gives what it is told up to the acknowledgement."""
        self.writer.write(ATTENTION)
        told = await self.hear()
        while told[-1] != ("done", DONE, ACKNOWLEDGED):
            told += await self.hear()
        return told

    async def cancelled(self, text, when):
        """A batch that is cancelled once this has come. Its server has done all of it, none, or the front of it: gives
        the sessions that could have said what is told."""
        self.trace.append(("cancelled", text))
        self.send(BATCH, text_of(text))
        await when
        told = await self.cancels()
        possible = [own for own, said in self.possible(text) if compared(told) == compared(said)]
        if not possible:
            raise Wrong(f"cancelled {text}: told {told[-6:]}, behind {self.trace[-8:]}")
        return possible

    async def finds(self, possible):
        """Asks which of these sessions it has: one of them."""
        self.trace.append("digest")
        self.send(BATCH, text_of("digest"))
        told = await self.hear()
        for self.own in possible:
            if compared(told) == compared(tokens(b"".join(self.own.batch("digest")) + self.news() + done())):
                return
        raise Wrong(f"a digest: {told}, of none of {len(possible)}, behind {self.trace[-8:]}")

    def possible(self, text):
        """Where a cancelled batch may have stopped: its session, and what was told of it."""
        acknowledged = done(ACKNOWLEDGED)
        yield self.own.copy(), tokens(acknowledged)
        own, said = self.own.copy(), b""
        for part in own.batch(text):
            said += part
            stopped = own.copy()
            news = stopped.news() if self.is_told and not self.vices.is_late else b""
            yield stopped, tokens(said + news + acknowledged)
        said += own.news() if self.is_told else b""
        yield own, tokens(said + done()) + tokens(acknowledged)
