"""The strict reader: the answers of the batch language, of tdsserve and of tests. A SQL Server's it refuses (docs/PROTOCOL.md)."""

import struct
from ctypes import byref, c_size_t
from dataclasses import dataclass
from typing import Iterator, List, Tuple, Union

from ._library import LIBRARY, Cursor, TokenValue
from .client import Answer, Client, Stage
from .fault import Fault

_OK, _END, _HEADER = 0, 9, 8


@dataclass(frozen=True)
class Message:
    """An INFO or an ERROR."""

    is_error: bool
    number: int
    state: int
    severity: int
    line: int
    text: str


@dataclass(frozen=True)
class ReturnStatus:
    """A RETURNSTATUS."""

    value: int


@dataclass(frozen=True)
class Columns:
    """A COLMETADATA of so many INT4 columns."""

    count: int


@dataclass(frozen=True)
class Row:
    """A ROW."""

    values: Tuple[int, ...]


@dataclass(frozen=True)
class Change:
    """An ENVCHANGE: 8 begin, 9 commit, 10 rollback, 18 the end of a reset; and the transaction's descriptor."""

    kind: int
    descriptor: int


@dataclass(frozen=True)
class Done:
    """A DONE."""

    status: int
    rows: int


Token = Union[Message, ReturnStatus, Columns, Row, Change, Done]


@dataclass(frozen=True)
class Taken:
    """What one packet of an answer did: MORE, FINISHED or ACKNOWLEDGED, and the tokens that are told."""

    answer: Answer
    tokens: List[Token]


class StrictClient(Client):
    """A client that reads the batch language alone, a packet and its tokens at a time. What it takes, no walk sees: `take` all
    packets of an answer, or `hear` all of them."""

    def take(self, packet: bytes) -> Taken:
        """Takes one packet of an answer, from its first byte to its last. Behind a cancel nothing is told of it."""
        is_told, columns = self._value.stage == Stage.READING, self._value.columns
        answer = LIBRARY.tds_client_take(byref(self._value), packet, len(packet))
        if answer >= 20:
            raise Fault(answer)
        return Taken(Answer(answer), list(_tokens(packet[_HEADER:], columns)) if is_told else [])


def _tokens(data: bytes, columns: int) -> Iterator[Token]:
    cursor, read, count, number = Cursor(0, columns), (TokenValue * 32)(), c_size_t(), _OK
    while number == _OK:
        number = LIBRARY.tds_tokens_next(data, len(data), byref(cursor), read, 32, byref(count))
        for it in read[: count.value]:
            yield _token(it, data[it.start:])
    if number != _END:
        raise Fault(number)


def _token(it: TokenValue, data: bytes) -> Token:
    if it.kind in (0xAB, 0xAA):
        length = 2 * int.from_bytes(data[9:11], "little")
        text = data[11: 11 + length].decode("utf-16-le", "surrogatepass")
        return Message(it.kind == 0xAA, it.number, it.state, it.severity, it.line, text)
    if it.kind == 0x79:
        return ReturnStatus(it.number)
    if it.kind == 0x81:
        return Columns(it.value)
    if it.kind == 0xD1:
        return Row(struct.unpack_from(f"<{it.value}i", data, 1))
    if it.kind == 0xE3:
        return Change(it.change, it.value)
    return Done(it.status, it.value)
