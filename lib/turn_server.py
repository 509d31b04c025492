"""A server over sockets that speaks session recovery, in a thread of its own, with the vices that it is asked for.

It logs in whoever comes, runs batches of statements (turn_sessions), calls, bulk loads, attentions and both resets, and
keeps what it was asked on each connection. What it says is written from MS-TDS alone.
"""

import asyncio
import itertools
import random
import socket
import struct
import threading

from turn_sessions import DATABASE, LANGUAGE, OTHER_TRANSACTION, QUESTIONS, Session, Vices, ends_with
from turn_tokens import (
    ACKNOWLEDGED, ATTENTION, BATCH, CALL, END, IGNORED, LOAD, RESET, RESET_BUT_TRANSACTION,
    asks_recovery, behind_headers, calls_of, change, done, error, let_in)

PRELOGIN = bytes([0, 0, 11, 0, 6, 1, 0, 17, 0, 1, 0xFF]) + bytes(6) + bytes([2])
FIRST_PROCESS = 51
# What the system keeps of what it sends, in bytes.
ROOM = 65_536


class Peer(asyncio.Protocol):
    """One connection to it."""

    def __init__(self, server):
        self.server, self.vices = server, server.vices
        self.came, self.message, self.status = bytearray(), b"", 0
        self.session = Session(self.vices, server.descriptors)
        self.task, self.is_stopped = None, False
        # Whether it has logged in, and whether session recovery was acknowledged.
        self.is_in = self.tells = False
        # What it was asked here: status, and text of a batch, or the request's type; and before that by a relay, of which the
        # first request that isn't a question is the end.
        self.asked, self.questions, self.is_asked = [], [], True

    def connection_made(self, transport):
        self.transport = transport
        self.process = next(self.server.processes)

    def connection_lost(self, _):
        self.server.peers.pop(self.process, None)
        if self.task:
            self.task.cancel()

    def data_received(self, piece):
        self.came += piece
        while len(self.came) >= 8:
            kind, status, size = struct.unpack_from(">BBH", self.came)
            if len(self.came) < size:
                return
            data = bytes(self.came[8:size])
            del self.came[:size]
            self.packet(kind, status, data)

    def packet(self, kind, status, data):
        if not self.message:
            self.status = status
        self.message += data
        if kind == ATTENTION:
            self.message = b""
            self.attention()
        elif status & IGNORED:
            self.message = b""
        elif status & END:
            whole, self.message = self.message, b""
            self.whole(kind, whole)

    def attention(self):
        if self.is_asked:
            self.questions.append((END, "cancel"))
        else:
            self.server.cancels += 1
        if self.is_asked and self.server.silent_at == "cancel":
            return
        if self.task:
            self.is_stopped = True
            self.server.goes_on.set()
        else:
            self.send(self.news(True) + done(ACKNOWLEDGED))

    def news(self, is_cancelled=False):
        if is_cancelled and self.vices.hides == "cancel":
            self.session.said = self.session.values()
        return b"" if not self.tells or self.vices.is_late and is_cancelled else self.session.news()

    def send(self, data, ends=True):
        at, parts = 0, []
        while at < len(data) or not parts:
            most = 4088
            if self.vices.is_torn and self.server.rng.random() < 0.7:
                most = self.server.rng.choice([1, 2, 3, 5, 9, 20, 60, 500])
            part = data[at:at + most]
            at += len(part)
            last = int(ends and at >= len(data))
            parts.append(struct.pack(">BBHHBB", 4, last, len(part) + 8, self.process, 1, 0) + part)
        self.transport.write(b"".join(parts))

    def whole(self, kind, data):
        """A whole message has come."""
        if kind == 0x12:
            self.send(PRELOGIN)
        elif kind == 0x10:
            self.log_in(data)
        elif kind in (BATCH, CALL, LOAD):
            self.request(kind, data)
        else:
            self.transport.close()

    def log_in(self, data):
        brought = asks_recovery(data)
        is_silent = self.vices.is_silent or self.vices.forgets and bool(self.server.logins)
        self.tells = brought is not None and not is_silent
        self.is_in = True
        self.server.peers[self.process] = self
        self.server.logins.append((self.process, brought))
        told = let_in(DATABASE, LANGUAGE, self.session.initial() if self.tells else None)
        if self.process > FIRST_PROCESS and self.server.late:
            self.server.loop.call_later(self.server.late, self.send, told)
        else:
            self.send(told)

    def request(self, kind, data):
        first = b""
        if self.status & (RESET | RESET_BUT_TRANSACTION):
            hides = "behind" if self.session.descriptor else "reset"
            self.session.reset(bool(self.status & RESET))
            first = b"" if self.vices.hides == hides else change(18, b"")
        if kind == LOAD:
            self.note("load")
            return self.answer(first, self.session.load(data), ends_with("load", data))
        descriptor, data = behind_headers(data)
        text = data.decode("utf-16le") if kind == BATCH else "call"
        self.note(text)
        if text == self.server.closes_at:
            self.server.closes_at = None
            return self.transport.abort()
        if text == self.server.silent_at:
            return None
        if descriptor != self.session.descriptor:
            return self.send(first + error(OTHER_TRANSACTION) + done(2))
        parts = self.session.batch(text) if kind == BATCH else self.session.calls(calls_of(data))
        end = ends_with("batch" if kind == BATCH else "calls")
        is_held = text == self.server.held_at
        if is_held:
            self.server.held_at, parts = None, itertools.chain([b""], parts)
        if is_held or b"r\0o\0w\0s\0" in data or b"w\0a\0i\0t\0" in data:
            self.task = asyncio.ensure_future(self.run(first, parts, end))
            return None
        return self.answer(first, parts, end)

    def note(self, text):
        """It is asked this, by a relay before anybody shares, or later."""
        self.is_asked = self.is_asked and (text in QUESTIONS or text == "call")
        (self.questions if self.is_asked else self.asked).append((self.status, text))

    def answer(self, first, parts, end):
        told = b"".join(parts)
        self.send(first + told + self.news() + end)

    async def run(self, first, parts, end):
        """Answers in parts, between which an attention may come; where a part is empty it waits."""
        if first:
            self.send(first, False)
        for part in parts:
            if part:
                self.send(part, False)
                await asyncio.sleep(0.0002 if self.vices.is_slow else 0)
            elif not self.is_stopped:
                self.server.goes_on.clear()
                self.server.is_waited_at = True
                await self.server.goes_on.wait()
                self.server.is_waited_at = False
            if self.is_stopped:
                self.task, self.is_stopped = None, False
                self.send(self.news(True) + done(ACKNOWLEDGED))
                return
        self.task = None
        self.send(self.news() + end)


class Server:
    """A server on a free port."""

    def __init__(self, vices=Vices()):
        self.vices, self.rng = vices, random.Random(7)
        self.descriptors, self.processes = itertools.count(1), itertools.count(FIRST_PROCESS)
        # The connections that have logged in, by their processes; each login's process, and what it brought to recover.
        self.peers, self.logins, self.cancels = {}, [], 0
        # Whether somebody waits in the middle of an answer; and a text at which a connection is closed, once.
        self.is_waited_at, self.closes_at = False, None
        # A text that is never answered, or a relay's "cancel"; one whose answer waits for `go_on`, once; and how many seconds each
        # login takes behind the first one.
        self.silent_at, self.held_at, self.late = None, None, 0

    def __enter__(self):
        is_there = threading.Event()
        self.thread = threading.Thread(target=lambda: asyncio.run(self.run(is_there)), daemon=True)
        self.thread.start()
        is_there.wait()
        return self

    async def run(self, is_there):
        self.loop, self.ends, self.goes_on = asyncio.get_running_loop(), asyncio.Event(), asyncio.Event()
        link = socket.create_server(("127.0.0.1", 0))
        # The system keeps little of an answer that isn't read.
        link.setsockopt(socket.SOL_SOCKET, socket.SO_SNDBUF, ROOM)
        listener = await self.loop.create_server(lambda: Peer(self), sock=link)
        self.port = link.getsockname()[1]
        is_there.set()
        await self.ends.wait()
        listener.close()
        for peer in list(self.peers.values()):
            peer.transport.abort()

    def __exit__(self, *_):
        self.loop.call_soon_threadsafe(self.ends.set)
        self.thread.join()

    def go_on(self):
        """Whoever waits in the middle of an answer goes on."""
        self.loop.call_soon_threadsafe(self.goes_on.set)

    def drop(self, process):
        """Closes a connection."""
        self.loop.call_soon_threadsafe(self.peers[process].transport.abort)

    def asked_on(self, process):
        """What it was asked there: status and text."""
        return list(self.peers[process].asked)

    def questions_on(self, process):
        """What it was asked there by a relay, before the connection was used."""
        return list(self.peers[process].questions)

    def is_begun_on(self, process):
        """Whether a request has begun to come there that goes on."""
        return bool(self.peers[process].message)

    def unsent_on(self, process):
        """How many bytes of its answers wait there, since nobody reads them."""
        return self.peers[process].transport.get_write_buffer_size()

    def left_over(self):
        """What connections have that a fresh one hasn't, by their processes."""
        fresh = Session(self.vices).what_it_has()
        return {process: peer.session.what_it_has() for process, peer in list(self.peers.items())
                if peer.session.what_it_has() != fresh or peer.session.hidden}
