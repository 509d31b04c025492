"""10,000 random rows of all types, a ROW or an NBCROW each: each value as it was made is what its bytes are read as, by `mouktelf.rows`
and, where it is installed, by python-tds; and a row cut anywhere gives the same values. The bytes are written here, by MS-TDS 2.2.5.5.

usage: test_values.py [SEED]                 with `--by PROGRAM` behind it that program, which prints values as
                                              packages/rust/mouktelf/examples/values.rs does, reads the same rows"""

import datetime
import random
import struct
import subprocess
import sys
import uuid
from decimal import Decimal

from mouktelf.rows import Columns, RowParts
from mouktelf.values import Type, joined_parts

ROWS = 10_000
DAY = 86_400 * 10 ** 7
EARLIEST, DAYS = datetime.date(1, 1, 1), 3_652_059
NULL_COUNT, NULL_LONG, NULL_PARTS = b"\xff\xff", b"\xff" * 4, b"\xff" * 8


def collation(locale, flags=0, order=0):
    return struct.pack("<IB", locale | flags, order)


LATIN, RUSSIAN, JAPANESE, OLD = collation(0x409), collation(0x419), collation(0x411), collation(0x409, order=42)
UTF_8 = collation(0x409, 1 << 26)
LETTERS = {"cp1252": "abcXYZ0 ÄéßñÖ€", "cp1251": "абвЯЖщ xyz", "cp932": "日本語カナ abc", "cp850": "abc ÄéñÖ│", "utf-8": "aä日😀 z"}


def little(number, size, signed=False):
    return number.to_bytes(size, "little", signed=signed)


class Random(random.Random):
    def edge(self, low, high):
        return self.choice((low, high, 0 if low <= 0 <= high else low)) if self.random() < 0.1 else self.randint(low, high)

    def text(self, letters, most):
        return "".join(self.choice(letters) for _ in range(self.randint(0, most)))


# Each: the column's TYPE_INFO; of a value its bytes in a row and what is expected; whether null may be; the column's Type.


def time_size(scale):
    return 3 if scale <= 2 else 4 if scale <= 4 else 5


def of_day(ticks):
    return (datetime.datetime.min + datetime.timedelta(microseconds=ticks // 10)).time()


def integers(size):
    low, high = (0, 255) if size == 1 else (-(1 << 8 * size - 1), (1 << 8 * size - 1) - 1)

    def value(it):
        number = it.edge(low, high)
        return little(number, size, size > 1), number
    return bytes([0x26, size]), 1, value, Type(0x26, size)


def fixed(kind, value):
    return bytes([kind]), 0, value, Type(kind)


def whole(kind, size):
    info, _, value, _ = integers(size)
    return fixed(kind, value)


def bit(it):
    number = it.randint(0, 1)
    return bytes([number]), bool(number)


def floats(size):
    def value(it):
        number = struct.unpack("<f", struct.pack("<f", it.uniform(-1e30, 1e30)))[0] if size == 4 else it.uniform(-1e300, 1e300)
        return struct.pack("<f" if size == 4 else "<d", number), number
    return bytes([0x6D, size]), 1, value, Type(0x6D, size)


def money(size):
    def value(it):
        number = it.edge(-(1 << 8 * size - 1), (1 << 8 * size - 1) - 1)
        data = little(number, 4, True) if size == 4 else little(number >> 32, 4, True) + little(number & 0xFFFFFFFF, 4)
        return data, Decimal(number).scaleb(-4)
    return bytes([0x6E, size]), 1, value, Type(0x6E, size)


def decimals(kind, precision, scale):
    size = 5 if precision < 10 else 9 if precision < 20 else 13 if precision < 29 else 17

    def value(it):
        number = it.edge(-(10 ** precision - 1), 10 ** precision - 1)
        digits = f"{abs(number):0{scale + 1}d}"
        expected = Decimal(f"{'-' if number < 0 else ''}{digits[:len(digits) - scale]}.{digits[len(digits) - scale:]}")
        return bytes([number >= 0]) + little(abs(number), size - 1), expected
    return bytes([kind, size, precision, scale]), 1, value, Type(kind, size, precision, scale)


def date(it):
    day = it.edge(0, DAYS - 1)
    return little(day, 3), EARLIEST + datetime.timedelta(days=day)


def times(scale):
    def value(it):
        count = it.edge(0, 86_400 * 10 ** scale - 1)
        return little(count, time_size(scale)), of_day(count * 10 ** (7 - scale))
    return bytes([0x29, scale]), 1, value, Type(0x29, scale=scale)


def datetimes2(scale):
    def value(it):
        (clock, at), (day, on) = times(scale)[2](it), date(it)
        return clock + day, datetime.datetime.combine(on, at)
    return bytes([0x2A, scale]), 1, value, Type(0x2A, scale=scale)


def offsets(scale):
    def value(it):
        minutes, count = it.edge(-840, 840), it.edge(0, 86_400 * 10 ** scale - 1)
        day = it.randint(2, DAYS - 3)
        utc = datetime.datetime.combine(EARLIEST + datetime.timedelta(days=day), of_day(count * 10 ** (7 - scale)), datetime.timezone.utc)
        return (little(count, time_size(scale)) + little(day, 3) + little(minutes, 2, True),
                utc.astimezone(datetime.timezone(datetime.timedelta(minutes=minutes))))
    return bytes([0x2B, scale]), 1, value, Type(0x2B, scale=scale)


def datetime_old(it):
    day, thirds = it.edge(-53_690, 2_958_463), it.edge(0, 25_919_999)
    # To the millisecond that is next: 1/300 s are .003, 2/300 s .007.
    milliseconds = (thirds * 1000 * 2 + 300) // 600
    return little(day, 4, True) + little(thirds, 4), datetime.datetime(1900, 1, 1) + datetime.timedelta(days=day, milliseconds=milliseconds)


def datetime_small(it):
    day, minutes = it.edge(0, 65_535), it.edge(0, 1439)
    return little(day, 2) + little(minutes, 2), datetime.datetime(1900, 1, 1) + datetime.timedelta(days=day, minutes=minutes)


def guid(it):
    text = "".join(it.choice("0123456789abcdef") for _ in range(32))
    a, b, c, rest = text[:8], text[8:12], text[12:16], text[16:]
    return bytes.fromhex(a)[::-1] + bytes.fromhex(b)[::-1] + bytes.fromhex(c)[::-1] + bytes.fromhex(rest), uuid.UUID(text)


def texts(kind, where, codec, size):
    def value(it):
        text = it.text(LETTERS[codec], size // 4)
        return text.encode(codec), text
    return bytes([kind]) + little(size, 2) + where, 2, value, Type(kind, size, collation=where)


def wides(kind, size):
    def value(it):
        text = it.text(LETTERS["utf-8"], size // 4)
        return text.encode("utf-16-le"), text
    return bytes([kind]) + little(size, 2) + LATIN, 2, value, Type(kind, size, collation=LATIN)


def binaries(kind, size):
    def value(it):
        data = bytes(it.randrange(256) for _ in range(it.randint(0, size)))
        return data, data
    return bytes([kind]) + little(size, 2), 2, value, Type(kind, size)


def in_parts(column, kind=None):
    info, _, value, made = column
    return (info if kind else info[:1] + NULL_COUNT + info[3:]), 8, value, made


def xml(it):
    text = f"<a b='{it.text('xyz日', 5)}'>{it.text(LETTERS['utf-8'], 40)}</a>"
    return text.encode("utf-16-le"), text


def pointed(info, value, made):
    return info + b"\1" + little(1, 2) + "t".encode("utf-16-le"), 16, value, made


VARIANTS = (
    (integers(4), 0x38, b""), (integers(8), 0x7F, b""), (integers(1), 0x30, b""), (fixed(0x32, bit), 0x32, b""), (floats(8), 0x3E, b""),
    (money(8), 0x3C, b""), (decimals(0x6C, 38, 12), 0x6C, bytes([38, 12])), (fixed(0x28, date), 0x28, b""), (times(7), 0x29, b"\7"),
    (datetimes2(3), 0x2A, b"\3"), (fixed(0x3D, datetime_old), 0x3D, b""), (fixed(0x24, guid), 0x24, b""),
    (texts(0xA7, LATIN, "cp1252", 40), 0xA7, LATIN + little(40, 2)), (wides(0xE7, 40), 0xE7, LATIN + little(40, 2)),
    (binaries(0xA5, 20), 0xA5, little(20, 2)),
)


def variant(it):
    (_, _, value, _), kind, own = it.choice(VARIANTS)
    data, expected = value(it)
    return bytes([kind, len(own)]) + own + data, expected


COLUMNS = [
    *map(integers, (1, 2, 4, 8)), whole(0x30, 1), whole(0x34, 2), whole(0x38, 4), whole(0x7F, 8), fixed(0x32, bit),
    (b"\x68\1", 1, bit, Type(0x68, 1)), floats(4), floats(8), money(4), money(8), decimals(0x6A, 9, 4), decimals(0x6C, 18, 0),
    decimals(0x6C, 28, 28), decimals(0x6A, 38, 0), decimals(0x6C, 38, 38), (b"\x28", 1, date, Type(0x28)), times(0), times(3), times(7),
    datetimes2(2), datetimes2(7), offsets(0), offsets(5), offsets(7), (b"\x6f\x08", 1, datetime_old, Type(0x6F, 8)),
    (b"\x6f\x04", 1, datetime_small, Type(0x6F, 4)), (b"\x24\x10", 1, guid, Type(0x24, 16)), texts(0xA7, LATIN, "cp1252", 60),
    texts(0xAF, RUSSIAN, "cp1251", 40), texts(0xA7, JAPANESE, "cp932", 60), texts(0xA7, OLD, "cp850", 60), texts(0xA7, UTF_8, "utf-8", 90),
    wides(0xE7, 80), wides(0xEF, 40), binaries(0xA5, 40), binaries(0xAD, 20), in_parts(texts(0xA7, LATIN, "cp1252", 300)),
    in_parts(wides(0xE7, 300)), in_parts(binaries(0xA5, 300)), (b"\xf1\0", 8, xml, Type(0xF1)),
    pointed(b"\x23" + little(1000, 4) + LATIN, texts(0xA7, LATIN, "cp1252", 200)[2], Type(0x23, 1000, collation=LATIN)),
    pointed(b"\x63" + little(1000, 4) + LATIN, wides(0xE7, 200)[2], Type(0x63, 1000, collation=LATIN)),
    pointed(b"\x22" + little(1000, 4), binaries(0xA5, 200)[2], Type(0x22, 1000)), (b"\x62" + little(8009, 4), 4, variant, Type(0x62, 8009)),
]


def in_row(it, front, data):
    """A value's bytes as a row has them, None for null; what its place has."""
    if front == 0:
        return data, data
    if front in (1, 2, 4):
        null = {1: b"\0", 2: NULL_COUNT, 4: little(0, 4)}[front]
        return (null, None) if data is None else (little(len(data), front) + data, data)
    if front == 16:
        return (b"\0", None) if data is None else (b"\x10" + b"p" * 16 + b"s" * 8 + little(len(data), 4) + data, data)
    if data is None:
        return NULL_PARTS, None
    parts, at = b"", 0
    while at < len(data):
        count = it.randint(1, len(data) - at)
        parts += little(count, 4) + data[at:at + count]
        at += count
    return little(len(data), 8) + parts + little(0, 4), parts


def python_tds():
    """A reader for each column by python-tds, or None where it isn't here, or doesn't know a column."""
    sys.path.append("/usr/lib/python3/dist-packages")
    try:
        from pytds import tds, tds_base, tds_types
    except (ImportError, AttributeError):
        return None

    class Ours:
        tzinfo_factory, use_tz = None, None
        conn = _tds = _login = None
        _transport = bytes_to_unicode = True

    class Reader(tds._TdsReader):
        def __init__(self, data):
            self._buf, self._pos, self._size, self._session = bytearray(data), 0, len(data), ours

        def is_done(self):
            return self._pos == self._size

    ours = Ours()
    ours.conn = ours._tds = ours._login = ours
    factory = tds_types.SerializerFactory(tds_base.TDS73)
    made = []
    for info, _, _, column in COLUMNS:
        # It has no UTF-8, and a name of a table stands where its own readers of TDS 7.2 have it.
        made.append(None if column.collation == UTF_8 else factory.get_type_serializer(info[0]).from_stream(Reader(info[1:])))
    return made, Reader


def plain(it):
    """What python-tds gives, as it is compared: 1 and True are equal anyway."""
    return bytes(it) if isinstance(it, (bytearray, memoryview)) else it


def in_pieces(it, columns, token):
    """The values of a row that comes in pieces of any size: as bytes, or None; and what is left behind it."""
    reader, values, at = RowParts(columns), {}, 0
    while at < len(token):
        count = it.choice((1, 2, 7, it.randint(1, len(token))))
        for index, piece, is_over in reader.feed(token[at:at + count]):
            assert index == len(values) - (index in values) and values.get(index, (0, False))[1] is False, "one behind the other"
            values[index] = None if piece is None else values.get(index, (b"", 0))[0] + piece, is_over
        at += count
    return [own for own, is_over in values.values() if is_over], reader.rest


def described():
    """The COLMETADATA of all columns."""
    told = b"\x81" + little(len(COLUMNS), 2)
    for index, (info, _, _, _) in enumerate(COLUMNS):
        name = f"ä{index}".encode("utf-16-le")
        told += little(index, 4) + little(9, 2) + info + bytes([len(name) // 2]) + name
    return told


def together(columns, tokens):
    """Whether rows behind one another, and a DONE, are found as each by itself, at its place; also where the last one is cut."""
    moved, values, at = [], [], 0
    for token in tokens:
        moved.append([(at + start, length, null) for start, length, null in columns.places(token)])
        values.append(columns.values(token))
        at += len(token)
    whole = b"".join(tokens)
    return (columns.places_of_rows(whole + b"\xfd") == (moved, at) and columns.values_of_rows(whole) == (values, at)
            and columns.places_of_rows(whole[:-1]) == (moved[:-1], at - len(tokens[-1])) and columns.places_of_rows(b"") == ([], 0))


# A code page that the program needn't have: it gives the bytes.
PAGES = (RUSSIAN, JAPANESE, OLD)


def told(value, data, column):
    """A value as the program prints it."""
    if value is None:
        return "-"
    if column.collation in PAGES or isinstance(value, bytes):
        return data.hex() if column.collation in PAGES else value.hex()
    if isinstance(value, float):
        return struct.pack(">d", value).hex()
    if isinstance(value, (bool, int)):
        return str(int(value))
    if isinstance(value, Decimal):
        return format(value, "f")
    if isinstance(value, datetime.datetime):
        minutes = value.utcoffset() // datetime.timedelta(minutes=1) if value.tzinfo else None
        utc = value.astimezone(datetime.timezone.utc).replace(tzinfo=None) if value.tzinfo else value
        return utc.isoformat(timespec="microseconds") + ("" if minutes is None else f"Z{minutes}")
    if isinstance(value, datetime.time):
        return value.isoformat(timespec="microseconds")
    return value.isoformat() if isinstance(value, datetime.date) else value.hex if isinstance(value, uuid.UUID) else value.encode().hex()


def read_by(program, tokens, lines):
    """How many of these rows the program reads as something else."""
    sent = "".join(f"{it.hex()}\n" for it in [described(), *tokens])
    printed = subprocess.run([program], input=sent, check=True, stdout=subprocess.PIPE, text=True).stdout.splitlines()
    assert len(printed) == len(tokens)
    wrong = [(own, wanted) for own, wanted in zip(printed, lines) if own != wanted]
    for own, wanted in wrong[:3]:
        print(f"{program}:", *(f"{one} for {other}" for one, other in zip(own.split(" "), wanted.split(" ")) if one != other))
    return len(wrong)


def main(seed, program=None):
    it, theirs, columns = Random(seed), python_tds(), Columns(described() + b"\xd1")
    assert [(own.name, own.user_type, own.flags, own.type.kind) for own in columns] == [
        (f"ä{index}", index, 9, column.kind) for index, (_, _, _, column) in enumerate(COLUMNS)]
    wrong = compared = nulls = 0
    tokens, all_tokens, lines = [], [], []
    for row in range(ROWS):
        is_bits, places, found, plain_row, bits = it.random() < 0.3, [], [], b"", bytearray((len(COLUMNS) + 7) // 8)
        made = []
        for index, (_, front, value, _) in enumerate(COLUMNS):
            data, expected = (None, None) if front and it.random() < 0.05 else value(it)
            # Of these no bytes are null.
            if front == 4 and not data:
                data = expected = None
            sent, place = in_row(it, front, data)
            if is_bits and data is None:
                bits[index // 8] |= 1 << index % 8
            else:
                plain_row += sent
            made.append((sent, place, expected))
            nulls += data is None
        token = (b"\xd2" + bits if is_bits else b"\xd1") + plain_row
        places, found = columns.places(token + b"\xd1"), columns.values(token)
        tokens.append(token)
        if program:
            all_tokens.append(token)
            lines.append(" ".join(told(expected, place, COLUMNS[it][3]) for it, (_, place, expected) in enumerate(made)))
        if len(tokens) == 500:
            wrong += not together(columns, tokens)
            tokens = []
        whole = [place if place is None or not own.is_in_parts else joined_parts(place) for (_, place, _), own in zip(made, columns)]
        if row % 10 == 0 and in_pieces(it, columns, token + b"\xd1") != (whole, b"\xd1"):
            wrong += 1
            print(f"row {row} is another one in pieces: {token.hex()}")
        for index, (sent, place, expected) in enumerate(made):
            (start, length, null), own, column = places[index], found[index], COLUMNS[index][3]
            if null != (place is None) or token[start:start + length] != (place or b"") or own != expected or type(own) is not type(expected):
                wrong += 1
                print(f"row {row}, {column}: {sent.hex()} is {own!r}, and {expected!r} was sent")
            if theirs and theirs[0][index]:
                other = plain(theirs[0][index].read(theirs[1](sent)))
                compared += 1
                if other != expected:
                    wrong += 1
                    print(f"row {row}, {column}: {sent.hex()} is {other!r} to python-tds, and {expected!r} was sent")
    if program:
        other = read_by(program, all_tokens, lines)
        print(f"values: {len(lines)} rows by {program}, {other} wrong")
        wrong += other
    print(f"values: {ROWS} rows of {len(COLUMNS)} columns, {nulls} nulls, {compared} compared with python-tds, {wrong} wrong")
    return bool(wrong)


if __name__ == "__main__":
    words = sys.argv[1:]
    by = words.pop(words.index("--by") + 1) if "--by" in words else None
    numbers = [it for it in words if it != "--by"]
    sys.exit(main(int(numbers[0]) if numbers else 1, by))
