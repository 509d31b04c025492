"""Values of rows as Python's own, by their column's type (MS-TDS 2.2.5.5): of the bytes that a reader of rows finds for each.

Not proved, and small. A value has exactly what was sent, but that times are cut to microseconds, which Python's have (`ticks_of`
has all of one), and datetimes stand to the millisecond that SQL Server shows. A text whose code page isn't known, a UDT, and
what isn't the bytes of its type are given as bytes."""

import datetime
import struct
import uuid
from decimal import Decimal
from typing import Any, Callable, Dict, NamedTuple, Optional, Tuple

_DAY_ONE, _OLD_DAY_ONE = datetime.date(1, 1, 1), datetime.date(1900, 1, 1)
_TICKS_OF_DAY = 864_000_000_000
_UTF_8 = 1 << 26


class Type(NamedTuple):
    """A column's type: its byte, the size that it declares, and what else it has, or 0."""

    kind: int
    size: int = 0
    precision: int = 0
    scale: int = 0
    collation: bytes = bytes(5)


# ---- Code pages

_BY_SORT_ORDER: Tuple[Tuple[int, int, str], ...] = (
    (30, 35, "cp437"), (40, 49, "cp850"), (50, 54, "cp1252"), (55, 61, "cp850"), (71, 75, "cp1252"), (80, 98, "cp1250"),
    (104, 108, "cp1251"), (112, 124, "cp1253"), (128, 130, "cp1254"), (136, 138, "cp1255"), (144, 146, "cp1256"),
    (152, 160, "cp1257"), (183, 186, "cp1252"), (192, 193, "cp932"), (194, 195, "cp949"), (196, 197, "cp950"), (198, 199, "cp936"),
    (200, 200, "cp932"), (201, 201, "cp949"), (202, 202, "cp950"), (203, 203, "cp936"), (204, 206, "cp874"), (210, 217, "cp1252"),
)
# By a locale; by its language alone, which are its lower ten bits; the others have 1252.
_BY_LOCALE = {0x81A: "cp1250", 0x141A: "cp1250", 0xC1A: "cp1251", 0x82C: "cp1251", 0x843: "cp1251", 0x480: "cp1256", 0x404: "cp950",
              0xC04: "cp950", 0x1404: "cp950", 0x804: "cp936", 0x1004: "cp936"}
_BY_LANGUAGE = {
    0x05: "cp1250", 0x0E: "cp1250", 0x15: "cp1250", 0x18: "cp1250", 0x1A: "cp1250", 0x1B: "cp1250", 0x1C: "cp1250", 0x24: "cp1250",
    0x42: "cp1250", 0x02: "cp1251", 0x19: "cp1251", 0x22: "cp1251", 0x23: "cp1251", 0x2F: "cp1251", 0x3F: "cp1251", 0x40: "cp1251",
    0x44: "cp1251", 0x50: "cp1251", 0x08: "cp1253", 0x1F: "cp1254", 0x2C: "cp1254", 0x43: "cp1254", 0x0D: "cp1255", 0x01: "cp1256",
    0x20: "cp1256", 0x29: "cp1256", 0x25: "cp1257", 0x26: "cp1257", 0x27: "cp1257", 0x1E: "cp874", 0x2A: "cp1258", 0x11: "cp932",
    0x12: "cp949",
}


def codec_of(collation: bytes) -> Optional[str]:
    """The codec of a collation's texts (MS-TDS 2.2.5.1.2): by its flag for UTF-8, by its sort order, or by its locale."""
    (flags, order) = struct.unpack("<IB", collation)
    if flags & _UTF_8:
        return "utf-8"
    if order:
        return next((codec for low, high, codec in _BY_SORT_ORDER if low <= order <= high), None)
    locale = flags & 0xFFFF
    return _BY_LOCALE.get(locale) or _BY_LANGUAGE.get(locale & 0x3FF, "cp1252")


# ---- Values

_STRUCTS = {"i2": struct.Struct("<h"), "i4": struct.Struct("<i"), "i8": struct.Struct("<q"), "f4": struct.Struct("<f"), "f8": struct.Struct("<d"),
            "money": struct.Struct("<iI"), "datetime": struct.Struct("<iI"), "small": struct.Struct("<HH")}


def _integer(column: Type, data: bytes) -> int:
    # One byte has no sign (MS-TDS 2.2.5.5.1.2).
    return int.from_bytes(data, "little", signed=len(data) > 1)


def _bit(column: Type, data: bytes) -> bool:
    return data != b"\0"


def _float(column: Type, data: bytes) -> float:
    return _STRUCTS["f4" if len(data) == 4 else "f8"].unpack(data)[0]


def _scaled(number: int, scale: int) -> Decimal:
    """Exact: what arithmetic of Decimals rounds isn't used."""
    return Decimal((int(number < 0), tuple(map(int, str(abs(number)))), -scale))


def _money(column: Type, data: bytes) -> Decimal:
    if len(data) == 4:
        return _scaled(int.from_bytes(data, "little", signed=True), 4)
    high, low = _STRUCTS["money"].unpack(data)
    return _scaled((high << 32) + low, 4)


def _decimal(column: Type, data: bytes) -> Decimal:
    number = int.from_bytes(data[1:], "little")
    return _scaled(number if data[0] else -number, column.scale)


def _datetime(column: Type, data: bytes) -> datetime.datetime:
    if len(data) == 4:
        days, minutes = _STRUCTS["small"].unpack(data)
        return datetime.datetime(1900, 1, 1) + datetime.timedelta(days=days, minutes=minutes)
    days, thirds = _STRUCTS["datetime"].unpack(data)
    return datetime.datetime(1900, 1, 1) + datetime.timedelta(days=days, milliseconds=(10 * thirds + 1) // 3)


def _date(column: Type, data: bytes) -> datetime.date:
    return _DAY_ONE + datetime.timedelta(days=int.from_bytes(data, "little"))


def _ticks(column: Type, data: bytes) -> int:
    """Of a time, in units of 100 nanoseconds."""
    return int.from_bytes(data, "little") * 10 ** (7 - column.scale)


def _time(column: Type, data: bytes) -> datetime.time:
    return (datetime.datetime.min + datetime.timedelta(microseconds=_ticks(column, data) // 10)).time()


def _datetime2(column: Type, data: bytes) -> datetime.datetime:
    return datetime.datetime.combine(_date(column, data[-3:]), _time(column, data[:-3]))


def _datetimeoffset(column: Type, data: bytes) -> datetime.datetime:
    # The date and the time are those of UTC (2.2.5.5.1.9).
    offset = datetime.timedelta(minutes=_STRUCTS["i2"].unpack(data[-2:])[0])
    return (_datetime2(column, data[:-2]) + offset).replace(tzinfo=datetime.timezone(offset))


def _guid(column: Type, data: bytes) -> uuid.UUID:
    return uuid.UUID(bytes_le=data)


def _text(column: Type, data: bytes) -> Any:
    codec = codec_of(column.collation)
    return data.decode(codec) if codec else data


def _wide(column: Type, data: bytes) -> str:
    return data.decode("utf-16-le", "surrogatepass")


def _xml(column: Type, data: bytes) -> str:
    return _wide(column, data[2:] if data[:2] == b"\xff\xfe" else data)


def _bytes(column: Type, data: bytes) -> bytes:
    return data


def _variant(column: Type, data: bytes) -> Any:
    """A base type's byte, how many bytes of properties it has, these, and the value (2.2.5.5.3)."""
    kind, count = data[0], data[1]
    own, value = data[2:2 + count], data[2 + count:]
    if kind in (0xA7, 0xAF, 0xE7, 0xEF):
        return value_of(Type(kind, collation=own[:5]), value)
    if kind in (0x6A, 0x6C):
        return value_of(Type(kind, precision=own[0], scale=own[1]), value)
    return value_of(Type(kind, scale=own[0] if kind in (0x29, 0x2A, 0x2B) else 0), value)


_READERS: Dict[int, Callable[[Type, bytes], Any]] = {
    **dict.fromkeys((0x26, 0x30, 0x34, 0x38, 0x7F), _integer), **dict.fromkeys((0x32, 0x68), _bit),
    **dict.fromkeys((0x3B, 0x3E, 0x6D), _float), **dict.fromkeys((0x3C, 0x6E, 0x7A), _money),
    **dict.fromkeys((0x37, 0x3F, 0x6A, 0x6C), _decimal), **dict.fromkeys((0x3A, 0x3D, 0x6F), _datetime),
    0x28: _date, 0x29: _time, 0x2A: _datetime2, 0x2B: _datetimeoffset, 0x24: _guid,
    **dict.fromkeys((0x23, 0x27, 0x2F, 0xA7, 0xAF), _text), **dict.fromkeys((0x63, 0xE7, 0xEF), _wide),
    **dict.fromkeys((0x22, 0x25, 0x2D, 0xA5, 0xAD, 0xF0), _bytes), 0xF1: _xml, 0x62: _variant,
}
_FAULTS = (ValueError, OverflowError, IndexError, struct.error)


def value_of(column: Type, data: Optional[bytes]) -> Any:
    """The value of these bytes, None where there is none. What no value of the type has, as a date beyond the year 9999, is given as
    the bytes that it came as."""
    if data is None or column.kind == 0x1F:
        return None
    try:
        return _READERS[column.kind](column, data)
    except _FAULTS:
        return data


def reader_of(column: Type) -> Callable[[Optional[bytes]], Any]:
    """`value_of` for one column, made once for many rows."""
    read = _READERS.get(column.kind)
    if read is _integer:
        # It reads any bytes, and most columns want it.
        return lambda data: None if data is None else int.from_bytes(data, "little", signed=len(data) > 1)

    def reader(data: Optional[bytes]) -> Any:
        if data is None or read is None:
            return None
        try:
            return read(column, data)
        except _FAULTS:
            return data

    return reader


def ticks_of(column: Type, data: bytes) -> int:
    """Of a time, a datetime2 or a datetimeoffset the time of day as it was sent, in units of 100 nanoseconds; of the last by UTC."""
    return _ticks(column, data[:len(data) - {0x29: 0, 0x2A: 3, 0x2B: 5}[column.kind]]) % _TICKS_OF_DAY


def joined_parts(data: bytes) -> bytes:
    """The value of parts, each behind a count of four bytes, as a (max) type's place has them (2.2.5.2.3)."""
    whole, at = [], 0
    while at < len(data):
        count = int.from_bytes(data[at:at + 4], "little")
        whole.append(data[at + 4:at + 4 + count])
        at += 4 + count
    return b"".join(whole)
