#!/usr/bin/env python3
"""Writes the data of three answers, for bench/plain_wire.c and the walker beside it: rows of one INT4, rows of mixed types with
and without a null bitmap, and rows of a value of 1 MB in parts (PLP).

usage: bench/wire_streams.py FOLDER [BYTES]     5,000,000 bytes each, if not said otherwise
"""
import random
import sys

COLLATION = bytes.fromhex("0904d00034")
DONE = bytes.fromhex("fd1000c100") + bytes(8)


def described(types):
    """COLMETADATA (MS-TDS 2.2.7.4) of columns of these types, with names of three units."""
    columns = b"".join(bytes(4) + b"\x01\x00" + it + b"\x03" + "abc".encode("utf-16-le") for it in types)
    return b"\x81" + len(types).to_bytes(2, "little") + columns


def counted(value, width=1):
    return len(value).to_bytes(width, "little") + value


def int4(size, r):
    out = bytearray(described([b"\x38"]))
    while len(out) < size:
        out += b"\xd1" + r.randbytes(4)
    return out


MIXED = [b"\x38", b"\x26\x04", b"\xe7\x64\x00" + COLLATION, b"\x2a\x07", b"\x6a\x09\x12\x02", b"\x68\x01", b"\xa5\x14\x00",
         b"\x26\x08", b"\x6d\x08", b"\xa7\x32\x00" + COLLATION]


def mixed_values(r):
    text = r.randbytes(2 * r.randint(0, 20))
    return [r.randbytes(4), counted(r.randbytes(4)), counted(text, 2), counted(r.randbytes(8)), counted(r.randbytes(9)), counted(b"\x01"),
            counted(r.randbytes(r.randint(0, 20)), 2), counted(r.randbytes(8)), counted(r.randbytes(8)), counted(r.randbytes(r.randint(0, 30)), 2)]


def mixed(size, r):
    """Every second row has a null bitmap, in which three columns of ten are null; the first one never is."""
    out = bytearray(described(MIXED))
    while len(out) < size:
        out += b"\xd1" + b"".join(mixed_values(r))
        bits = sum(1 << place for place in range(1, 10) if r.random() < 0.3)
        out += b"\xd2" + bits.to_bytes(2, "little")
        out += b"".join(value for place, value in enumerate(mixed_values(r)) if not bits >> place & 1)
    return out


def parts(size, r):
    """Values of 1,048,576 bytes, in parts of 8,000."""
    out = bytearray(described([b"\xa5\xff\xff"]))
    while len(out) < size:
        value = r.randbytes(1 << 20)
        out += b"\xd1" + len(value).to_bytes(8, "little")
        out += b"".join(counted(value[at:at + 8000], 4) for at in range(0, len(value), 8000)) + bytes(4)
    return out


def main():
    folder, size = sys.argv[1], int(sys.argv[2]) if len(sys.argv) > 2 else 5_000_000
    for make in (int4, mixed, parts):
        with open(f"{folder}/wire_{make.__name__}", "wb") as file:
            file.write(make(size, random.Random(58)) + DONE)


if __name__ == "__main__":
    main()
