"""LOGIN7 (MS-TDS 2.2.6.4), as far as a test server wants it. Nothing of it is proved, and a real server wants more:
PRELOGIN before it, a password, and mostly TLS."""

import struct


def login(name: str, size: int = 4096) -> bytes:
    """A login of TDS 7.4 by this name, that asks for packets of this size."""
    user = name.encode("utf-16-le")
    fixed, end = 94, 94 + len(user)
    body = bytearray(fixed)
    struct.pack_into("<III", body, 0, end, 0x74000004, size)
    # Texts: where each begins, and how many units it has. The user's is the second, the others are empty.
    for field in (36, 40, 44, 48, 52, 56, 60, 64, 68, 78, 82, 86):
        struct.pack_into("<HH", body, field, fixed if field == 40 else end, len(user) // 2 if field == 40 else 0)
    return struct.pack(">BBHHBB", 0x10, 1, 8 + end, 0, 1, 0) + bytes(body) + user


def is_let_in(packet: bytes) -> bool:
    """Whether the answer to a login has a LOGINACK (2.2.7.14)."""
    at = 8
    while at + 2 < len(packet) and packet[at] != 0xFD:
        if packet[at] == 0xAD:
            return True
        at += 3 + int.from_bytes(packet[at + 1: at + 3], "little")
    return False
