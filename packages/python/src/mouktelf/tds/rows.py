"""Columns and rows: what a COLMETADATA says, and values from the bytes of a row (MS-TDS 2.2.7.4, 2.2.7.20, 2.2.7.15)."""

import functools
from typing import Any, Callable, List, NamedTuple, Tuple

from .. import values
from ..values import Type
from . import errors

_NULLS, _NULLABLE, _IN_PARTS, _NULL_PARTS = 0xD2, 1, 0xFFFF, b"\xFF" * 8
# By a type's byte (2.2.5.4): the size that a value has by itself; what stands behind the byte; how long values are counted.
_FIXED = {0x1F: 0, 0x30: 1, 0x32: 1, 0x34: 2, 0x38: 4, 0x3A: 4, 0x3B: 4, 0x7A: 4, 0x3C: 8, 0x3D: 8, 0x3E: 8, 0x7F: 8}
_SIZED, _SCALED, _DECIMAL = (0x24, 0x26, 0x68, 0x6D, 0x6E, 0x6F, 0x25, 0x27, 0x2D, 0x2F), (0x29, 0x2A, 0x2B), (0x37, 0x3F, 0x6A, 0x6C)
_OLD_TEXTS = (0x25, 0x27, 0x2D, 0x2F)
_LONG, _POINTED, _WIDE = (0xA5, 0xAD, 0xA7, 0xAF, 0xE7, 0xEF), (0x22, 0x23, 0x63), (0xE7, 0xEF)
_XML, _OWN, _VARIANT, _DATE = 0xF1, 0xF0, 0x62, 0x28
_COLLATED = (0xA7, 0xAF, 0xE7, 0xEF, 0x23, 0x63)


class TypeObject:
    """A group of types (PEP 249): equal to the code of each in a column's description."""

    def __init__(self, *codes: int) -> None:
        self._codes = frozenset(codes)

    def __eq__(self, other: object) -> bool:
        return self._codes == other._codes if isinstance(other, TypeObject) else other in self._codes

    def __hash__(self) -> int:
        return hash(self._codes)


STRING = TypeObject(0x23, 0x27, 0x2F, 0x63, 0xA7, 0xAF, 0xE7, 0xEF, _XML)
BINARY = TypeObject(0x22, 0x25, 0x2D, 0xA5, 0xAD)
NUMBER = TypeObject(0x26, 0x30, 0x32, 0x34, 0x38, 0x3B, 0x3C, 0x3E, 0x68, 0x6A, 0x6C, 0x6D, 0x6E, 0x7A, 0x7F)
DATETIME = TypeObject(0x28, 0x29, 0x2A, 0x2B, 0x3A, 0x3D, 0x6F)
ROWID = TypeObject()

Row = Tuple[Any, ...]
# Takes a value that begins at a place of a row: it, and where the next one begins.
Take = Callable[[bytes, int], Tuple[Any, int]]


class Column(NamedTuple):
    """A column: its name, its type, whether its values may be null, and how they are taken."""

    name: str
    type: Type
    is_nullable: bool
    take: Take


class Columns:
    """The columns of one result: `description` as PEP 249 has it, and `read`, which gives the values of a row's token."""

    def __init__(self, token: bytes) -> None:
        columns = readable(_columns_of, token)
        self.description = tuple(map(_described, columns))
        self._takes, self._nulls = [it.take for it in columns], (len(columns) + 7) // 8

    def read(self, row: bytes) -> Row:
        """The values of a ROW or NBCROW. DataError where they can't be read."""
        try:
            return self._values(row)
        except Exception as why:
            raise unreadable(why)

    def read_all(self, rows: List[bytes]) -> List[Row]:
        """The same of some rows."""
        try:
            return [*map(self._values, rows)]
        except Exception as why:
            raise unreadable(why)

    def _values(self, row: bytes) -> Row:
        if row[0] == _NULLS:
            return self._with_nulls(row)
        found, at = [], 1
        for take in self._takes:
            value, at = take(row, at)
            found.append(value)
        return tuple(found)

    def _with_nulls(self, row: bytes) -> Row:
        found: List[Any] = []
        nulls, at = int.from_bytes(row[1: 1 + self._nulls], "little"), 1 + self._nulls
        for place, take in enumerate(self._takes):
            value, at = (None, at) if nulls >> place & 1 else take(row, at)
            found.append(value)
        return tuple(found)


@functools.lru_cache(maxsize=256)
def columns_of(token: bytes) -> Columns:
    """The columns of a COLMETADATA: those of a query that is asked again are read once."""
    return Columns(token)


def returned(token: bytes) -> Tuple[int, Any]:
    """The place and the value of a RETURNVALUE (2.2.7.19)."""
    reader = _Reader(token, 1)
    place = reader.number(2)
    reader.text(1)
    reader.number(1)
    _, take = reader.typed()[1:]
    return place, take(token, reader.at)[0]


def readable(read: Callable[[Any], Any], token: Any) -> Any:
    """What is read of a token. DataError where it can't be: the session is none the worse for it."""
    try:
        return read(token)
    except Exception as why:
        raise unreadable(why)


def unreadable(why: Exception) -> Exception:
    """What is raised where a token couldn't be read: an error of this package as it is."""
    if isinstance(why, (errors.Error, MemoryError)):
        return why
    found = errors.DataError(f"a value or a type that can't be read: {why!r}")
    found.__cause__ = why
    return found


def _described(it: Column) -> Row:
    kind, size = it.type.kind, it.type.size
    shown = -1 if size == _IN_PARTS else size // 2 if kind in _WIDE else size
    return it.name, kind, None, shown, it.type.precision or None, it.type.scale or None, it.is_nullable


def _columns_of(token: bytes) -> List[Column]:
    reader = _Reader(token, 3)
    return [reader.column() for _ in range(int.from_bytes(token[1:3], "little"))]


class _Reader:
    """Reads what a column's type says, from a place on."""

    def __init__(self, data: bytes, at: int) -> None:
        self.data, self.at = data, at

    def bytes(self, count: int) -> bytes:
        self.at += count
        return self.data[self.at - count: self.at]

    def number(self, count: int) -> int:
        return int.from_bytes(self.bytes(count), "little")

    def text(self, count: int) -> str:
        return self.bytes(2 * self.number(count)).decode("utf-16-le", "surrogatepass")

    def column(self) -> Column:
        flags, kind, take = self.typed()
        if kind.kind in _POINTED:
            for _ in range(self.number(1)):
                self.text(2)
        return Column(self.text(1), kind, bool(flags & _NULLABLE), take)

    def typed(self) -> Tuple[int, Type, Take]:
        self.number(4)
        flags, kind = self.number(2), self.type()
        return flags, kind, _take_of(kind)

    def type(self) -> Type:
        kind = self.number(1)
        if kind in _FIXED:
            return Type(kind, _FIXED[kind])
        if kind in _SIZED:
            return Type(kind, self.number(1))
        if kind in _SCALED:
            return Type(kind, scale=self.number(1))
        if kind in _DECIMAL:
            return Type(kind, self.number(1), self.number(1), self.number(1))
        if kind == _DATE:
            return Type(kind)
        if kind == _XML:
            for width in (1, 1, 2) if self.number(1) else ():
                self.text(width)
            return Type(kind, _IN_PARTS)
        return self._wide_type(kind)

    def _wide_type(self, kind: int) -> Type:
        if kind not in (*_LONG, *_POINTED, _VARIANT, _OWN):
            raise errors.NotSupportedError(f"a column of type {kind:02X}")
        size = self.number(4 if kind in (*_POINTED, _VARIANT) else 2)
        if kind == _OWN:
            for width in (1, 1, 1, 2):
                self.text(width)
            return Type(kind, _IN_PARTS)
        return Type(kind, size, collation=self.bytes(5)) if kind in _COLLATED else Type(kind, size)


def _take_of(kind: Type) -> Take:
    """How a value of this type is taken from a row: the one place where values are read."""
    read = values.reader_of(kind)
    if kind.kind in _FIXED:
        return _fixed(read, _FIXED[kind.kind])
    if kind.size == _IN_PARTS and kind.kind in (*_LONG, _XML, _OWN):
        return _in_parts(read)
    if kind.kind in _LONG:
        return _counted(read, 2, _IN_PARTS)
    if kind.kind in _POINTED:
        return _pointed(read)
    if kind.kind == _VARIANT:
        return _counted(read, 4, 0)
    return _counted_by_one(read, 0xFF if kind.kind in _OLD_TEXTS else 0)


def _fixed(read: Any, size: int) -> Take:
    return lambda row, at: (read(row[at: at + size]), at + size)


def _counted_by_one(read: Any, null: int) -> Take:
    def take(row: bytes, at: int) -> Tuple[Any, int]:
        count = row[at]
        if count == null:
            return None, at + 1
        end = at + 1 + count
        return read(row[at + 1: end]), end

    return take


def _counted(read: Any, width: int, null: int) -> Take:
    def take(row: bytes, at: int) -> Tuple[Any, int]:
        begin = at + width
        count = int.from_bytes(row[at: begin], "little")
        if count == null:
            return None, begin
        return read(row[begin: begin + count]), begin + count

    return take


def _pointed(read: Any) -> Take:
    counted = _counted(read, 4, -1)
    return lambda row, at: counted(row, at + 9 + row[at]) if row[at] else (None, at + 1)


def _in_parts(read: Any) -> Take:
    def take(row: bytes, at: int) -> Tuple[Any, int]:
        if row[at: at + 8] == _NULL_PARTS:
            return None, at + 8
        parts: List[bytes] = []
        at, count = at + 8, -1
        while count:
            count = int.from_bytes(row[at: at + 4], "little")
            parts.append(row[at + 4: at + 4 + count])
            at += 4 + count
        return read(b"".join(parts)), at

    return take
