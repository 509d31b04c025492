"""What both ends of a recorded connection do wrong: a test suite's, or a proxy's (docs/JUDGING.md says what is found)."""

from ctypes import byref, c_size_t
from dataclasses import dataclass
from enum import IntEnum
from typing import Iterable, List, Tuple

from ._library import LIBRARY, JudgeFinding, JudgeLimits, JudgePiece

_JUDGED, _NO_ROOM, _MISFIT = 0, 1, 2


class What(IntEnum):
    """What a piece is: bytes of a direction; or, without bytes, that the connection is lent to somebody else, or closed."""

    TO_SERVER = 0
    TO_CLIENT = 1
    BORROWED = 2
    CLOSED = 3


class Level(IntEnum):
    """MS-TDS forbids it; it is lawful, and loses work or an answer; or a note."""

    BREACH = 0
    RISK = 1
    NOTE = 2


@dataclass(frozen=True)
class Finding:
    """A finding by its number, 1 to 45; the byte of its direction at which it is told, counted from 0; the time of its
    piece; and what goes with it, or 0."""

    number: int
    level: Level
    direction: What
    offset: int
    time: int
    value: int


def judge(
    pieces: Iterable[Tuple[int, int, bytes]], idle: int = 0, columns: int = 4096, encryption: bool = False, ranks: bool = False
) -> List[Finding]:
    """The findings of one connection, from its first piece to its last.

    A piece is its time in microseconds, what it is, and its bytes; they are cut as you like. A transaction may be idle for
    `idle` microseconds (0: as long as it likes), and a result may have so many columns, 4,096 at most. `encryption` and
    `ranks` (data classification of version 2) are what the login acknowledged."""
    recorded = list(pieces)
    data = b"".join(it for _, _, it in recorded)
    given = (JudgePiece * len(recorded))(*((time, len(it), what) for time, what, it in recorded))
    limits, count, room = JudgeLimits(idle, columns, encryption, ranks), c_size_t(), 64
    while True:
        found = (JudgeFinding * room)()
        answer = LIBRARY.tds_judge(byref(limits), given, len(recorded), data, len(data), found, room, byref(count))
        if answer != _NO_ROOM:
            break
        room = count.value
    if answer == _MISFIT:
        raise ValueError(f"a result has at most 4096 columns, and not {columns}")
    if answer != _JUDGED:
        raise MemoryError
    return [Finding(it.number, Level(it.level), What(it.direction), it.offset, it.time, it.value) for it in found[: count.value]]
