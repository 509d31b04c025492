"""Answers as a server of TDS 7.4 sends them, written by hand from MS-TDS: no line is shared with the layout.

`answers(seed, count)` gives answers, each with its bytes, its tokens as (place, first byte, length), what it holds
that a peer is known to read otherwise (see differences.py), and what was agreed in its login.
"""
import random
import struct

U8 = lambda n: struct.pack("<B", n)
U16 = lambda n: struct.pack("<H", n)
U32 = lambda n: struct.pack("<I", n)
U64 = lambda n: struct.pack("<Q", n)

COLLATION = bytes.fromhex("0904d00034")
PLP_NULL = b"\xff" * 8
PLP_UNKNOWN = b"\xfe" + b"\xff" * 7
EDGES = [0, 0, 1, 2, 3, 7, 8, 9, 15, 16, 127, 128, 253, 254, 255]


class Answer:
    def __init__(self, agreed=()):
        self.data = bytearray()
        self.tokens = []
        self.marks = []  # (which token, what)
        self.agreed = set(agreed)
        self.kinds = set()  # of columns and parameters: the type's byte, and 256 more for one in parts

    def add(self, token, *marks):
        self.marks += [(len(self.tokens), mark) for mark in marks]
        self.tokens.append((len(self.data), token[0], len(token)))
        self.data += token


class Maker:
    """Makes the fields of 2.2.5 at random."""

    def __init__(self, seed):
        self.r = random.Random(seed)

    def some(self, n):
        return self.r.randbytes(n)

    def units(self, most=12):
        """How many units a text has: mostly few, now and then as many as go in."""
        return self.r.choice(EDGES) if self.r.random() < 0.01 else self.r.randint(0, most)

    def text(self, n):
        """n units of UTF-16 (2.2.5.1.2)."""
        return "".join(self.r.choice("abcdefghij_ÄΩ漢") for _ in range(n)).encode("utf-16-le")

    def b_varchar(self, most=12):
        n = self.units(most)
        return U8(n) + self.text(n)

    def us_varchar(self, most=20):
        n = self.r.choice([0, 255, 256, 300, 1000]) if self.r.random() < 0.03 else self.r.randint(0, most)
        return U16(n) + self.text(n)

    def b_varbyte(self, n):
        return U8(n) + self.some(n)

    def plp(self, is_text=False):
        """A value of 2.2.5.2.3: null, of known length, of unknown length; in parts as they come. A text is in UTF-16."""
        kind = self.r.random()
        if kind < 0.15:
            return PLP_NULL
        parts = []
        for _ in range(self.r.choice([0, 1, 1, 1, 2, 3, 7])):
            n = self.r.choice([1, 2, 255, 256, 4000, 8000]) if self.r.random() < 0.02 else self.r.randint(1, 40)
            if self.r.random() < 0.0002:
                n = self.r.choice([65535, 65536, 70000])
            n += n % 2 if is_text else 0
            parts.append(U32(n) + (self.text(n // 2) if is_text else self.some(n)))
        total = sum(len(part) - 4 for part in parts)
        head = PLP_UNKNOWN if kind < 0.5 else U64(total)
        return head + b"".join(parts) + U32(0)


# ---- Types (2.2.5.4, 2.2.5.5). Each answers what stands behind UserType and Flags, and a function for one value; `None` of a
# ---- value is null by a bitmap's bit alone.

def fixed(byte, n):
    return lambda m: (U8(byte), lambda: (m.some(n), None))


def byte_length(byte, sizes):
    """GUID, INTN, BITN, FLTN, MONEYN, DATETIMN: the largest length in the type, GEN_NULL is a length of 0."""
    def make(m):
        size = m.r.choice(sizes)
        def value():
            n = 0 if m.r.random() < 0.2 else size
            return m.b_varbyte(n), None
        return U8(byte) + U8(size), value
    return make


def decimal(byte):
    def make(m):
        size = m.r.choice([5, 9, 13, 17])
        precision = {5: 9, 9: 19, 13: 28, 17: 38}[size]
        def value():
            if m.r.random() < 0.2:
                return U8(0), None
            return U8(size) + U8(m.r.randint(0, 1)) + m.some(size - 1), None
        return U8(byte) + U8(size) + U8(precision) + U8(m.r.randint(0, precision)), value
    return make


def days(m):
    """A date: days from 1 January 1 to 31 December 9999."""
    return U32(m.r.randint(0, 3_652_058))[:3]


def date(m):
    return U8(0x28), lambda: (U8(0) if m.r.random() < 0.2 else U8(3) + days(m), None)


def time(byte, more):
    """TIME, DATETIME2, DATETIMEOFFSET: a scale, and 3, 4 or 5 bytes of time with what stands behind it."""
    def make(m):
        scale = m.r.randint(0, 7)
        n = (3 if scale < 3 else 4 if scale < 5 else 5) + more
        def value():
            if m.r.random() < 0.2:
                return U8(0), None
            clock = U64(m.r.randrange(86400 * 10**scale))[:n - more]
            return U8(n) + clock + (days(m) if more else b"") + (U16(m.r.randint(0, 840)) if more == 5 else b""), None
        return U8(byte) + U8(scale), value
    return make


def old(byte):
    """CHAR, VARCHAR, BINARY, VARBINARY of before TDS 7.0: BYTELEN."""
    def make(m):
        most = m.r.choice([1, 30, 255])
        return U8(byte) + U8(most), lambda: (m.b_varbyte(m.r.choice([0, m.r.randint(0, 20) % (most + 1)]) if m.r.random() < 0.95 else most), None)
    return make


def short(byte, collated):
    """USHORTLEN types: a length of 2 bytes, CHARBIN_NULL is FFFF."""
    def make(m):
        most = m.r.choice([2, 20, 100, 8000])
        def value():
            if m.r.random() < 0.2:
                return U16(0xFFFF), None
            n = m.r.choice([0, most]) if m.r.random() < 0.01 else m.r.randint(0, min(most, 30))
            return U16(n) + m.some(n), None
        return U8(byte) + U16(most) + (COLLATION if collated else b""), value
    return make


def large(byte, collated):
    """PARTLENTYPE with USHORTMAXLEN."""
    return lambda m: (U8(byte) + U16(0xFFFF) + (COLLATION if collated else b""), lambda: (m.plp(byte == 0xE7), None))


def text_type(byte, collated):
    """TEXT, NTEXT, IMAGE: TextPointer, Timestamp and data of 2.2.7.20; a pointer of length 0 is null."""
    def make(m):
        parts = m.r.choice([0, 1, 1, 2, 3, 4])
        table = U8(parts) + b"".join(m.us_varchar(8) for _ in range(parts))
        def value():
            if m.r.random() < 0.25:
                return U8(0), "null text"
            n = m.r.choice([0, 1, 255, 4096]) if m.r.random() < 0.02 else 2 * m.r.randint(0, 20)
            return U8(16) + m.some(24) + U32(n) + m.some(n), None
        return U8(byte) + U32(0x7FFFFFFE) + (COLLATION if collated else b""), value, table
    return make


def variant(m):
    """SQL_VARIANT (2.2.5.5.4): base type, count of properties, properties, value."""
    seen = set()

    def value():
        if m.r.random() < 0.2:
            return U32(0), "variant"
        base, n = m.r.choice([(0x38, 4), (0x32, 1), (0x24, 16), (0x3D, 8), (0x7F, 8)])
        inner = m.r.choice([
            U8(base) + U8(0) + m.some(n),
            U8(0xE7) + U8(7) + COLLATION + U16(8000) + m.text(m.r.randint(0, 30)),
            U8(0x6A) + U8(2) + U8(9) + U8(4) + U8(1) + U32(m.r.randrange(10**9)),
            U8(0x2A) + U8(1) + U8(7) + U64(m.r.randrange(864 * 10**9))[:5] + days(m),
            U8(0xA5) + U8(2) + U16(8000) + m.some(m.r.choice([0, 1, 9, 300]) if m.r.random() < 0.95 else 8005),
        ])
        seen.add(inner[0])
        return U32(len(inner)) + inner, "bytes behind a text" if inner[0] != 0xE7 and 0xE7 in seen else "variant"
    return U8(0x62) + U32(8009), value


def xml(m):
    schema = m.r.random() < 0.4
    info = U8(0xF1) + (U8(1) + m.b_varchar() + m.b_varchar() + m.us_varchar() if schema else U8(0))
    return info, lambda: (m.plp(True), None), b"", ("XML schema" if schema else None)


def udt(m):
    size = m.r.choice([892, 8000, 0xFFFF])
    return U8(0xF0) + U16(size) + m.b_varchar() + m.b_varchar() + m.b_varchar() + m.us_varchar(60), lambda: (m.plp(), None)


TYPES = {
    0x1F: fixed(0x1F, 0), 0x30: fixed(0x30, 1), 0x32: fixed(0x32, 1), 0x34: fixed(0x34, 2), 0x38: fixed(0x38, 4),
    0x3A: fixed(0x3A, 4), 0x3B: fixed(0x3B, 4), 0x3C: fixed(0x3C, 8), 0x3D: fixed(0x3D, 8), 0x3E: fixed(0x3E, 8),
    0x7A: fixed(0x7A, 4), 0x7F: fixed(0x7F, 8),
    0x24: byte_length(0x24, [16]), 0x26: byte_length(0x26, [1, 2, 4, 8]), 0x68: byte_length(0x68, [1]),
    0x6D: byte_length(0x6D, [4, 8]), 0x6E: byte_length(0x6E, [4, 8]), 0x6F: byte_length(0x6F, [4, 8]),
    0x37: decimal(0x37), 0x3F: decimal(0x3F), 0x6A: decimal(0x6A), 0x6C: decimal(0x6C),
    0x28: date, 0x29: time(0x29, 0), 0x2A: time(0x2A, 3), 0x2B: time(0x2B, 5),
    0x25: old(0x25), 0x27: old(0x27), 0x2D: old(0x2D), 0x2F: old(0x2F),
    0xA5: short(0xA5, False), 0xA7: short(0xA7, True), 0xAD: short(0xAD, False), 0xAF: short(0xAF, True),
    0xE7: short(0xE7, True), 0xEF: short(0xEF, True),
    0x1A5: large(0xA5, False), 0x1A7: large(0xA7, True), 0x1E7: large(0xE7, True),
    0x22: text_type(0x22, False), 0x23: text_type(0x23, True), 0x63: text_type(0x63, True),
    0x62: variant, 0xF1: xml, 0xF0: udt,
}


class Column:
    def __init__(self, m, kind):
        made = TYPES[kind](m)
        self.kind, self.info, self.value = kind, made[0], made[1]
        self.table = made[2] if len(made) > 2 else b""
        self.mark = made[3] if len(made) > 3 else None
        self.crypto = b""
