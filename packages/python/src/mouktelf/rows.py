"""Where the values of rows stand, and these as Python's own: of the tokens that a client hears or a walk finds.

    for token in client.hear(packet).tokens:
        own = data[token.start: token.start + token.length]
        if token.kind == COLMETADATA:
            columns = Columns(own) or columns
        elif token.kind in (ROW, NBCROW):
            row = columns.values(own)

A row needn't have ended: RowParts takes its bytes as they come, and gives values, and those in parts piece by piece."""

import struct
from ctypes import byref, c_size_t, c_uint8
from typing import Any, Iterator, List, NamedTuple, Optional, Tuple

from ._library import LIBRARY, ColumnValue, PartsValue
from .fault import Fault
from .values import Type, joined_parts, reader_of

COLMETADATA, ROW, NBCROW = 0x81, 0xD1, 0xD2
_OK, _CUT, _SAME, _FIRST_FAULT, _WANTS_BYTES, _OTHER, _FULL, _MOST, _PARTS = 0, 1, 2, 20, 24, 71, 74, 4096, 5
_PLACE = struct.Struct("=QQB7x")


class Column(NamedTuple):
    """A column: its name, its type, whether its values come in parts, and what else is told of it (MS-TDS 2.2.7.4)."""

    name: str
    type: Type
    is_in_parts: bool
    flags: int
    user_type: int


def _done(answer: int, may_be_cut: bool = False) -> int:
    if answer == _CUT and not may_be_cut:
        raise Fault(_WANTS_BYTES)
    if answer >= _FIRST_FAULT:
        raise Fault(answer)
    return answer


class Columns:
    """The columns that a COLMETADATA describes, from its first byte on; none where it describes none, and those before it stay: it is
    false then. `encryption` says that the login acknowledged column encryption. It is for one thread at a time."""

    def __init__(self, token: bytes, encryption: bool = False) -> None:
        token, count, taken = bytes(token), c_size_t(), c_size_t()
        room = min(int.from_bytes(token[1:3], "little"), _MOST)
        self._raw = (ColumnValue * max(room, 1))()
        _done(LIBRARY.tds_columns(token, len(token), encryption, self._raw, room, byref(count), byref(taken)))
        self._count, self._taken, self._ref = count.value, c_size_t(), None
        self.columns: List[Column] = [_column(self._raw[it], token) for it in range(self._count)]
        self._readers = [_reader(it) for it in self.columns]
        self._bytes = bytearray(max(self._count, 1) * _PLACE.size)
        self._room = (c_uint8 * len(self._bytes)).from_buffer(self._bytes)
        self._ref = byref(self._taken)

    def __len__(self) -> int:
        return self._count

    def __getitem__(self, index: int) -> Column:
        return self.columns[index]

    def places(self, row: bytes) -> List[Tuple[int, int, int]]:
        """Where each value stands in a ROW or an NBCROW, from its first byte on: start, length, and 1 where it is null."""
        _done(LIBRARY.tds_row_places(self._raw, self._count, row, len(row), self._room, self._count, self._ref))
        return list(_PLACE.iter_unpack(self._bytes)) if self._count else []

    def places_of_rows(self, data: bytes) -> Tuple[List[List[Tuple[int, int, int]]], int]:
        """The same of all rows that these bytes begin with, one behind the other, from the first of these bytes on; and how many bytes
        they have. Behind them stands nothing, another token, or a row that isn't whole."""
        data, count, rows, taken = bytes(data), max(self._count, 1), c_size_t(), c_size_t()
        room = count * min(max(_MOST // count, 1), len(data) + 1)
        found, answer, at, all_rows = bytearray(_PLACE.size * room), _FULL, 0, []  # type: bytearray, int, int, List[List[Tuple[int, int, int]]]
        lent = (c_uint8 * len(found)).from_buffer(found)
        while answer == _FULL:
            rest = data[at:] if at else data
            answer = LIBRARY.tds_places_of_rows(self._raw, self._count, rest, len(rest), lent, room, byref(rows), byref(taken))
            places = list(_PLACE.iter_unpack(memoryview(found)[:_PLACE.size * rows.value * self._count]))
            if at:
                places = [(start + at, length, null) for start, length, null in places]
            all_rows += [places[it:it + count] for it in range(0, len(places), count)]
            at += taken.value
        if answer not in (_OK, _CUT, _OTHER):
            raise Fault(answer)
        return all_rows, at

    def values_of_rows(self, data: bytes) -> Tuple[List[Tuple[Any, ...]], int]:
        """The values of those rows, by `mouktelf.values`, and how many bytes they have."""
        data = bytes(data)
        rows, taken = self.places_of_rows(data)
        return [tuple([None if null else reader(data[start:start + length]) for (start, length, null), reader in zip(row, self._readers)])
                for row in rows], taken

    def come(self, data: bytes, first: int = 0, nulls: bytes = b"") -> Tuple[List[Tuple[int, int, int]], int]:
        """Of bytes that begin with the value of the column `first` of a row where each value stands that is whole, and where the next
        one begins. `nulls` is the null bitmap of an NBCROW."""
        following, taken = c_size_t(), c_size_t()
        _done(LIBRARY.tds_row_values(
            self._raw, self._count, first, nulls, len(nulls), data, len(data), self._room, self._count, byref(following), byref(taken)), True)
        return [_PLACE.unpack_from(self._bytes, _PLACE.size * it) for it in range(first, following.value)], taken.value

    def values(self, row: bytes) -> Tuple[Any, ...]:
        """The values of a row, by `mouktelf.values`."""
        row = bytes(row)
        _done(LIBRARY.tds_row_places(self._raw, self._count, row, len(row), self._room, self._count, self._ref))
        places = zip(_PLACE.iter_unpack(self._bytes), self._readers)
        return tuple([None if null else reader(row[start:start + length]) for (start, length, null), reader in places])


def _reader(column: Column) -> Any:
    read = reader_of(column.type)
    return (lambda data: read(joined_parts(data))) if column.is_in_parts else read


def _column(it: ColumnValue, token: bytes) -> Column:
    name = token[it.name.start:it.name.start + it.name.length].decode("utf-16-le", "surrogatepass")
    made = Type(it.kind, it.size, it.precision, it.scale, bytes(it.collation))
    return Column(name, made, it.shape.form == _PARTS, it.flags, it.user_type)


class Parts:
    """A value in parts as its bytes come, from its first one on."""

    def __init__(self) -> None:
        self._value, self._start, self._count, self._taken = PartsValue(), c_size_t(), c_size_t(), c_size_t()
        self._refs = [byref(it) for it in (self._value, self._start, self._count, self._taken)]
        self._answer = _CUT

    @property
    def is_over(self) -> bool:
        return self._answer != _CUT

    @property
    def is_null(self) -> bool:
        return self._answer == _SAME

    def feed(self, data: bytes) -> Tuple[List[bytes], int]:
        """Its own bytes among these, a piece for each part, and how many of these belong to the value: all of them, until it is over."""
        pieces, at, (value, start, count, taken) = [], 0, self._refs
        while not self.is_over and at < len(data):
            rest = data[at:] if at else data
            self._answer = LIBRARY.tds_parts_next(value, rest, len(rest), start, count, taken)
            if self._count.value:
                pieces.append(rest[self._start.value:self._start.value + self._count.value])
            at += self._taken.value
        return pieces, at


class RowParts:
    """A row's values as its bytes come, from its first one on: of each column (its place, bytes, whether it is over), where None stands
    for null; of one in parts a piece each time, and what isn't over is kept for no longer than its head."""

    def __init__(self, columns: Columns) -> None:
        self._columns, self._next, self._nulls, self._parts = columns, 0, None, None  # type: Columns, int, Optional[bytes], Optional[Parts]
        self._rest = b""

    @property
    def is_over(self) -> bool:
        return self._nulls is not None and self._next == len(self._columns)

    def feed(self, data: bytes) -> Iterator[Tuple[int, Optional[bytes], bool]]:
        """What stands in these bytes. Those behind the row's end are `rest`."""
        self._rest += data
        while self._head() and not self.is_over:
            if self._parts:
                pieces, taken = self._parts.feed(self._rest)
                self._rest = self._rest[taken:]
                yield from ((self._next, it, False) for it in pieces)
                if not self._parts.is_over:
                    return
                yield self._next, None if self._parts.is_null else b"", True
                self._next, self._parts = self._next + 1, None
                continue
            places, taken = self._columns.come(self._rest, self._next, self._nulls or b"")
            for start, length, null in places:
                own = self._rest[start:start + length]
                joined = joined_parts(own) if self._columns[self._next].is_in_parts else own
                yield self._next, None if null else joined, True
                self._next += 1
            self._rest = self._rest[taken:]
            if self.is_over or not self._columns[self._next].is_in_parts:
                return
            self._parts = Parts()

    @property
    def rest(self) -> bytes:
        return self._rest

    def _head(self) -> bool:
        """Whether the row's first byte and its null bitmap have come."""
        if self._nulls is None and self._rest:
            bits = (len(self._columns) + 7) // 8 if self._rest[0] == NBCROW else 0
            if len(self._rest) > bits:
                self._nulls, self._rest = self._rest[1:1 + bits], self._rest[1 + bits:]
        return self._nulls is not None
