"""Where each token of an answer ends, for every type of column of TDS 7.2 to 7.4 (MS-TDS 2.2.7)."""

import struct
from ctypes import addressof, byref, c_char_p, c_void_p, cast
from enum import IntEnum
from operator import itemgetter
from typing import Any, Iterable, Iterator, List, NamedTuple, Optional, Tuple

from ._library import LIBRARY, WireMemory, WireWalk
from ._rooms import Own, Telling
from .fault import Fault, Refused

_ENDED, _MORE, _TELL, _FIRST_FAULT = 0, 1, 10, 20
AT_ONCE = 256
# struct tds_wire_token: all of it; what it has of a token of which nothing is told, as a row; and where it has what is told.
TOKEN, _FRONT, _TELLS_AT = struct.Struct("=8QiIHH6B6x"), struct.Struct("=2Q60x2B10x"), 77


class Tells(IntEnum):
    """What is told of a token: which fields of it count."""

    NOTHING = 0
    DONE = 1
    TRANSACTION = 2
    RESET = 3
    PACKET_SIZE = 4
    VALUES = 5
    OTHER_CHANGE = 6
    MESSAGE = 7
    RETURN_STATUS = 8
    SESSION_STATE = 9
    UNCLEAR = 10


class Place(NamedTuple):
    """Bytes of the message, counted from its first one. They may have come in pieces that are gone."""

    start: int
    length: int


def _behind(place: int) -> property:
    """A field that a token has of which something is told."""
    return property(lambda it: it[place] if len(it) > place else 0)


class Walked(tuple):
    """A token that has ended: a tuple, and a name for each field of mouktelf.h. One that its kind doesn't have is 0.

    DONE: status, command, value (the count of rows). TRANSACTION: change, value and old_value, descriptors.
    PACKET_SIZE: size. VALUES: change, text (the new one), others (the old one). MESSAGE: number, state, severity, text,
    others (names and line). RETURN_STATUS: number. SESSION_STATE: size (its number), is_recoverable, text (the states)."""

    __slots__ = ()
    start, length, kind = (property(itemgetter(it)) for it in range(3))
    tells = property(lambda it: _TELLS[it[3]])
    value, old_value = (_behind(it) for it in (4, 5))
    text = property(lambda it: Place(*(it[6:8] or (0, 0))))
    others = property(lambda it: Place(*(it[8:10] or (0, 0))))
    number, size, status, command, change, state, severity = (_behind(it) for it in range(10, 17))
    is_recoverable = property(lambda it: it[17:] == (1,))

    @property
    def packed(self) -> bytes:
        """As a call reads it."""
        it = (*self, *bytes(14))
        return TOKEN.pack(*it[:2], *it[4:14], *it[2:4], *it[14:18])

    def __repr__(self) -> str:
        told = ", ".join(f"{name}={getattr(self, name)!r}" for name in _FIELDS if getattr(self, name) not in (0, (0, 0)))
        return f"Walked(tells={self.tells.name}{', ' if told else ''}{told})"


_FIELDS = ("start", "length", "kind", "value", "old_value", "text", "others", "number", "size", "status", "command", "change",
           "state", "severity", "is_recoverable")
_TELLS = tuple(Tells)


def _told(room: Telling, count: int) -> List[Tuple[int, ...]]:
    """The first tokens that were written: start, length, kind, what is told, and behind these, where something is, all else."""
    size, view = TOKEN.size, room.view[: count * TOKEN.size]
    found, tells = [*_FRONT.iter_unpack(view)], bytes(view[_TELLS_AT::size])
    if any(tells):
        for at, it in enumerate(tells):
            if it:
                whole = TOKEN.unpack_from(view, size * at)
                found[at] += (*whole[2:12], *whole[14:])
    return found


OWN = Own(AT_ONCE * TOKEN.size)


class Walk:
    """A walk over the tokens of answers, whose bytes come in pieces of any size: the data of packets of type 04."""

    def __init__(self, most: int = 4096, encryption: bool = False, ranks: bool = False) -> None:
        """With room for so many columns. `encryption` and `ranks` say that the FEATUREEXTACK of the login acknowledged
        column encryption, and data classification of version 2."""
        self._value, self._memory = WireWalk(), WireMemory()
        self.places = addressof(self._value), addressof(self._memory)
        LIBRARY.tds_wire_new(min(max(most, 0), 0xFFFF), encryption, ranks, byref(self._value), byref(self._memory))

    def next(self, data: bytes) -> Tuple[int, Optional[Walked]]:
        """Takes bytes up to the end of one token: how many, and the token, where one has ended."""
        return self._next(c_char_p(data), len(data))

    def _next(self, data: c_char_p, length: int) -> Tuple[int, Optional[Walked]]:
        room = OWN.room
        answer = LIBRARY.tds_wire_next(*self.places, data, length, room.count_at, room.tokens_at)
        if answer > _MORE:
            raise self.fault(answer)
        return room.count.value, Walked(*_told(room, 1)) if answer == _ENDED else None

    def fault(self, number: int) -> Fault:
        """The fault of this number: of a byte that this walk has refused, with its place."""
        refused = self._value.refused
        return Refused(number, refused.at, refused.byte) if 71 <= number <= 74 else Fault(number)

    def tokens(self, data: bytes) -> Iterator[Walked]:
        """The tokens that end in this piece."""
        data, at = bytes(data), 0
        first = address_of(data)
        while at < len(data):
            count, token = self._next(c_char_p(first + at), len(data) - at)
            at += count
            if token:
                yield token

    @property
    def is_between(self) -> bool:
        """Whether a message may end here."""
        return LIBRARY.tds_wire_is_between(byref(self._value), byref(self._memory)) == 1

    def restart(self) -> None:
        """Begins anew, before the first token of the next message."""
        LIBRARY.tds_wire_restart(byref(self._value), byref(self._memory))


def hears(call, walk: Walk, data: bytes, at: int, ends: int, *whose, tells: bool = True) -> Tuple[int, List[Tuple[int, ...]]]:
    """Lets a client or a table hear what ends in these data from a place on, by this walk and by `call`, in one call for 256 tokens:
    what it answers, and the tokens that are told, unless nobody wants them, as plain tuples. A Fault has those told before it."""
    room, told, answer, length, (value, memory) = OWN.room, [], _TELL, len(data), walk.places
    while answer == _TELL:
        front = from_place(data, at) if at else data
        answer = call(value, memory, front, length - at, ends, room.taken_at, room.tokens_at, AT_ONCE, room.count_at, *whose)
        if tells:
            told += _told(room, room.count.value)
        at += room.taken.value
    if answer < _FIRST_FAULT:
        return answer or _MORE, told
    fault = walk.fault(answer)
    fault.tokens = walked(told)
    raise fault


def walked(told: Iterable[Tuple[int, ...]]) -> List[Walked]:
    """Tokens with their names, of plain tuples."""
    return [*map(Walked, told)]


def from_place(data: bytes, at: int) -> Any:
    """These bytes from a place on, as a call takes them; whoever asks keeps them."""
    return c_char_p(address_of(data) + at) if at else data


def address_of(data: bytes) -> int:
    """Where these bytes lie; whoever asks keeps them."""
    return cast(c_char_p(data), c_void_p).value or 0
