"""Packets, requests and tokens of a trace, spelled and read from docs/PROTOCOL.md alone."""

import struct

ALL_HEADERS = 22
TRANSACTION, BATCH, ATTENTION, RESULT = 0x0E, 1, 6, 4


class Wrong(Exception):
    """What of a trace is wrong."""


def hold(is_so, what):
    if not is_so:
        raise Wrong(what)


def split(data):
    """The packets at the front of bytes, each whole, and the bytes behind them."""
    found = []
    while len(data) >= 8 and len(data) >= (length := struct.unpack(">H", data[2:4])[0]):
        hold(length >= 8, "a packet's length")
        found.append(data[:length])
        data = data[length:]
    return found, data


def shown(units):
    """A text of UTF-16 as a report shows it."""
    return "".join(chr(it) if 32 <= it <= 126 and it != 92 else f"\\u{it:04x}"
                   for (it,) in struct.iter_unpack("<H", units))


def tokens_of(data, columns):
    """The tokens in the data of a packet: their lines, and of an ENVCHANGE its type and the new value. With so many
    columns known; it answers how many are known behind it."""
    found, at = [], 0
    while at < len(data):
        kind, at = data[at], at + 1
        if kind in (0xAB, 0xAA):
            length, number, units = struct.unpack("<HixxH", data[at:at + 10])
            word = "info" if kind == 0xAB else "error"
            found.append((f"{word} {number} {shown(data[at + 10:at + 10 + 2 * units])}", None))
            at += 2 + length
        elif kind == 0x79:
            found.append((f"status {struct.unpack('<i', data[at:at + 4])[0]}", None))
            at += 4
        elif kind == 0x81:
            columns, at, names = struct.unpack("<H", data[at:at + 2])[0], at + 2, []
            for _ in range(columns):
                hold(data[at + 6] == 0x38, "a column's type")
                units = data[at + 7]
                names.append(shown(data[at + 8:at + 8 + 2 * units]))
                at += 8 + 2 * units
            found.append((f"columns {','.join(names)}", None))
        elif kind == 0xD1:
            hold(columns, "a row without columns")
            found.append(("row " + ",".join(map(str, struct.unpack(f"<{columns}i", data[at:at + 4 * columns]))), None))
            at += 4 * columns
        elif kind == 0xE3:
            length, change, count = struct.unpack("<HBB", data[at:at + 4])
            found.append((None, (change, int.from_bytes(data[at + 4:at + 4 + count], "little"))))
            at += 2 + length
        elif kind == 0xFD:
            status, _, rows = struct.unpack("<HHQ", data[at:at + 12])
            hold(status & 0x10 or not rows, "a DONE with a count that isn't valid")
            found.append((f"done {status:04x} {rows}", None))
            columns, at = 0, at + 12
        else:
            raise Wrong(f"the token {kind:02x}")
        hold(at <= len(data), "a token is cut short")
    return found, columns


def message_of(asked, descriptor):
    """The type and the bytes of a request's message."""
    head = struct.pack("<IIHQI", ALL_HEADERS, 18, 2, descriptor, 1)
    word, *rest = asked
    if word == "batch":
        return BATCH, head + rest[0].encode("utf-16-le", "surrogatepass")
    if word == "begin":
        return TRANSACTION, head + struct.pack("<HBB", 5, rest[0], 0)
    next_level = struct.pack("<BBB", 1, rest[0], 0) if rest else b"\0"
    return TRANSACTION, head + struct.pack("<HB", 7 if word == "commit" else 8, 0) + next_level


def packet(kind, status, number, data):
    return struct.pack(">BBHHBB", kind, status, 8 + len(data), 0, number & 0xFF, 0) + data
