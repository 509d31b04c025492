"""The client's end of one connection."""

import threading
from ctypes import addressof, byref, c_size_t, c_uint8, c_uint16
from enum import IntEnum
from functools import partial
from typing import List, NamedTuple, Optional, Tuple

from ._library import LIBRARY, ClientValue, Packet
from ._rooms import Sending
from .fault import Fault
from .wire import Tells, Walk, Walked, from_place, hears, walked

_MESSAGE_MOST = 4022
_NO_NEXT = 255
_TO_CLIENT = 1
_FULL, _TELL, _OUT_OF_RANGE, _WANTS_BYTES, _FIRST_FAULT = 1, 10, 23, 24, 20
_HEADER, _RESET, _NEW_IS_TOLD, _AT_ONCE = 8, 18, (8, 11), 16


class Answer(IntEnum):
    """What a call did, as mouktelf.h numbers it."""

    MORE = 1
    LAST = 2
    FINISHED = 3
    ACKNOWLEDGED = 4
    NOTHING = 5
    ALREADY = 6
    UNSENT = 7
    ASKED = 8


Acknowledged = Answer.ACKNOWLEDGED
ANSWERS = (None, *Answer)


class MessageKind(IntEnum):
    """Which message a request is (MS-TDS 2.2.1)."""

    BATCH = 1
    PROCEDURE = 3
    BULK_LOAD = 7
    TRANSACTION = 14


class Stage(IntEnum):
    """What a client is doing."""

    IDLE = 0
    SENDING = 1
    READING = 2
    CANCELLING = 3
    BROKEN = 4


class Reset(IntEnum):
    """The reset that the next request asks for."""

    FULL = 1
    KEEP_TRANSACTION = 2


class Heard(NamedTuple):
    """What one packet of an answer did: MORE, FINISHED or ACKNOWLEDGED, and the tokens that are told, as a walk finds them."""

    answer: Answer
    tokens: List[Walked]


def _done(number: int) -> int:
    if number >= _FIRST_FAULT:
        raise Fault(number)
    return number


class Client:
    """The client's end of one connection to any server, for packets of 512 to 32,767 bytes."""

    def __init__(self, size: int, walk: Optional[Walk] = None) -> None:
        """`walk` is the one that it hears by, where the login acknowledged what a `Walk` has to know."""
        self._value, self._message, self._walk = ClientValue(), b"", walk
        if not 0 <= size <= 0xFFFF:
            raise Fault(_OUT_OF_RANGE)
        _done(LIBRARY.tds_client_new(size, byref(self._value)))
        self._at, self._room = addressof(self._value), Sending(size)
        self._hears = partial(LIBRARY.tds_client_hear, self._at)

    @property
    def stage(self) -> Stage:
        """What it is doing."""
        return Stage(self._value.stage)

    @property
    def descriptor(self) -> int:
        """The descriptor of the open transaction, 0 for none."""
        return self._value.descriptor

    def mark_reset(self, reset: Reset) -> None:
        """In idle: lets the next request ask for a reset. Of two marks the stronger one stays."""
        _done(LIBRARY.tds_client_mark_reset(byref(self._value), reset))

    def start_batch(self, text: str) -> None:
        """In idle: takes a batch of 1 to 2,000 units of UTF-16. Nothing goes out yet."""
        data = text.encode("utf-16-le", "surrogatepass")
        units = (c_uint16 * max(len(data) // 2, 1)).from_buffer_copy(data or b"\0\0")
        self._start(LIBRARY.tds_client_start_batch, units, len(data) // 2)

    def start_begin(self, isolation: int = 0) -> None:
        """In idle: takes the request to begin a transaction, at a level of 0 to 5."""
        self._start(LIBRARY.tds_client_start_begin, _level(isolation))

    def start_commit(self, next: Optional[int] = None) -> None:
        """In idle: takes the request to commit, and to begin the next transaction at once at that level."""
        self._start(LIBRARY.tds_client_start_commit, _NO_NEXT if next is None else _level(next))

    def start_rollback(self, next: Optional[int] = None) -> None:
        """The same of a rollback."""
        self._start(LIBRARY.tds_client_start_rollback, _NO_NEXT if next is None else _level(next))

    def _start(self, call, *words) -> None:
        message, count = (c_uint8 * _MESSAGE_MOST)(), c_size_t()
        _done(call(byref(self._value), *words, message, _MESSAGE_MOST, byref(count)))
        self._message = bytes(message[: count.value])

    def send(self) -> Tuple[Answer, bytes]:
        """In sending: the request's next packet, and whether it is the LAST or there are MORE."""
        room = self._room
        number = _done(LIBRARY.tds_client_send(self._at, self._message, len(self._message), room.packet_at, room.size, room.count_at))
        return Answer(number), room.written()

    def send_all(self) -> bytes:
        """The packets of the request that are still to go out."""
        packets, answer = [], Answer.MORE
        while answer == Answer.MORE:
            answer, packet = self.send()
            packets.append(packet)
        return b"".join(packets)

    def cancel(self) -> Tuple[Answer, bytes]:
        """Cancels what is underway. Behind ASKED send the bytes, and hear packets until ACKNOWLEDGED."""
        room = self._room
        room.clear()
        number = _done(LIBRARY.tds_client_cancel(self._at, room.packet_at, room.size, room.count_at))
        return Answer(number), room.written()

    def ask(self, kind: MessageKind, body: bytes) -> bytes:
        """In idle: begins a message, puts its whole body and ends it: its packets."""
        room = self._room
        answer = LIBRARY.tds_client_ask(self._at, kind, body, len(body), room.packet_at, room.size, room.count_at)
        if answer == _OUT_OF_RANGE:
            # It is more than a packet has room for.
            self.start_message(kind)
            return self.put(body) + self.finish()
        if answer >= _FIRST_FAULT:
            raise Fault(answer)
        return room.written()

    def start_message(self, kind: MessageKind) -> None:
        """In idle: begins a message that is sent in parts. Its body comes by `put`, and `finish` ends it."""
        room = self._room
        # A call that is refused writes nothing.
        _done(LIBRARY.tds_client_start_message(self._at, kind, room.kept_at, room.most, room.waiting_at))

    def put(self, data: bytes) -> bytes:
        """In sending: puts bytes of the message's body, and gives the packets that are full."""
        room, size, packets, answer, at = self._room, len(data), [], _FULL, 0
        while answer == _FULL:
            answer = _done(LIBRARY.tds_client_put(
                self._at, room.kept_at, room.most, room.waiting_at, from_place(data, at), size - at, room.taken_at, room.packet_at,
                room.size, room.count_at))
            packets.append(room.written())
            at += room.taken.value
        return b"".join(packets)

    def finish(self) -> bytes:
        """Ends the message, and gives its last packet."""
        room = self._room
        _done(LIBRARY.tds_client_finish(self._at, room.kept_at, room.waiting, room.packet_at, room.size, room.count_at))
        return room.written()

    def heard(self, token: Walked) -> bool:
        """Hears a token that a walk of your own has found, in place of `hear`. Whether the caller that asked is told of it: behind
        a cancel nobody is."""
        if token.tells == Tells.DONE:
            return self.heard_done(token.kind, token.status)
        if token.tells == Tells.TRANSACTION:
            return self.heard_change(token.change, token.value if token.change in _NEW_IS_TOLD else token.old_value)
        return self.heard_change(_RESET) if token.tells == Tells.RESET else self.heard_other()

    def heard_done(self, kind: int, status: int) -> bool:
        """Hears a DONE (FD), DONEPROC (FE) or DONEINPROC (FF) that a reader of your own has found."""
        return _done(LIBRARY.tds_client_heard_done(byref(self._value), kind, status)) == _TELL

    def heard_change(self, kind: int, descriptor: int = 0) -> bool:
        """Hears an ENVCHANGE of type 8 to 12, 17 or 18, with the transaction's descriptor: the new one of a begin, else the old."""
        return _done(LIBRARY.tds_client_heard_change(byref(self._value), kind, descriptor)) == _TELL

    def heard_other(self) -> bool:
        """Hears any other token."""
        return _done(LIBRARY.tds_client_heard_other(byref(self._value))) == _TELL

    @property
    def walk(self) -> Walk:
        """The walk that it hears by."""
        if self._walk is None:
            self._walk = Walk()
        return self._walk

    def hear(self, packet: bytes) -> Heard:
        """Hears one packet of any server's answer, from its first byte to its last, and tells the tokens that end in it. Where
        they stand is counted from their message's first byte: keep its packets' data until it ends, if you read rows or texts.
        Behind a cancel nothing is told. A `Fault` has in `tokens` what was told before it."""
        if len(packet) < _HEADER:
            raise Fault(_WANTS_BYTES)
        answer, told = self.hear_plain(bytes(packet), packet[1] & 1, _HEADER)
        return Heard(answer, walked(told))

    def follow(self, packet: bytes) -> Answer:
        """The same, where nobody wants the tokens: for who reads rows by a reader of his own, and wants the client's state alone."""
        if len(packet) < _HEADER:
            raise Fault(_WANTS_BYTES)
        return ANSWERS[hears(self._hears, self.walk, bytes(packet), _HEADER, packet[1] & 1, tells=False)[0]]

    def hear_data(self, data: bytes, ends: bool) -> Heard:
        """The same of a packet's data, behind its header, or of a piece of them; `ends` is bit 1 of the packet's status, with its
        last piece."""
        answer, told = self.hear_plain(bytes(data), ends)
        return Heard(answer, walked(told))

    def hear_plain(self, data: bytes, ends: int, at: int = 0) -> Tuple[Answer, List[Tuple[int, ...]]]:
        """The same from a place on, where tokens are told as plain tuples, each of a `Walked`'s values."""
        # It is `walk.tokens`, `heard` and `message_ended`, for 256 tokens in one call.
        answer, told = hears(self._hears, self._walk or self.walk, data, at, ends)
        return ANSWERS[answer], told

    def message_ended(self) -> Answer:
        """Hears that a message has ended, behind the packet whose status has bit 1: MORE, FINISHED or ACKNOWLEDGED."""
        return Answer(_done(LIBRARY.tds_client_message_ended(byref(self._value))))

    def lost(self) -> None:
        """The connection is lost: the client is broken, unless it is broken already."""
        LIBRARY.tds_client_lost(byref(self._value))


def _level(isolation: int) -> int:
    if not 0 <= isolation < _NO_NEXT:
        raise Fault(23)
    return isolation


class _Found(threading.local):
    """Room for packets that are found, of each thread."""

    def __init__(self) -> None:
        packets, self.count = (Packet * _AT_ONCE)(), c_size_t()
        # Each lies among them.
        self.packets = [*packets]
        self.at, self.count_at = addressof(packets), addressof(self.count)


_FOUND = _Found()


def packets_of(data: bytes, size: int) -> Tuple[List[bytes], bytes]:
    """The packets from a server at the front of these bytes, and the rest, behind which the next bytes go."""
    if not 0 <= size <= 0xFFFF:
        raise Fault(_OUT_OF_RANGE)
    data, packets, at, room = bytes(data), [], 0, _FOUND
    while True:
        front = from_place(data, at) if at else data
        number = LIBRARY.tds_packets_read(front, len(data) - at, size, _TO_CLIENT, room.at, _AT_ONCE, room.count_at)
        for packet in room.packets[: room.count.value]:
            end = at + packet.length
            packets.append(data[at: end])
            at = end
        if number == _WANTS_BYTES:
            return packets, data[at:]
        _done(number)
