"""What a client sends, spelled by MS-TDS 7.4.

Numbers in a packet's header have their high byte first, all others their low byte first. Texts are UTF-16.
"""

import struct

BATCH, RPC, REPLY, ATTENTION, MANAGER, LOGIN7, PRELOGIN = 0x01, 0x03, 0x04, 0x06, 0x0E, 0x10, 0x12
# Status bits (2.2.3.1.2).
LAST, IGNORE, RESET, RESET_KEEP = 0x01, 0x02, 0x08, 0x10
# What PRELOGIN says of encryption (2.2.6.5).
OFF, ON, NOT_SUP, REQ = range(4)
NAMES = {BATCH: "batch", RPC: "rpc", REPLY: "reply", ATTENTION: "attention", MANAGER: "transaction manager",
         LOGIN7: "login", PRELOGIN: "prelogin"}
# The packet size until the server tells another, and the one that is asked for.
SIZE = 4096
HEADER = 8
# What a recording has in the place of the login's password, whatever that is.
HIDDEN = "********"
# Procedures that are known by a number (2.2.6.6).
EXECUTE_SQL, PREPARE, PREPARE_AND_EXECUTE, EXECUTE, UNPREPARE = 10, 11, 13, 12, 15
# What stands between two calls of one RPC message (2.2.6.6, BatchFlag).
NEXT_CALL = b"\xff"
COLLATION = bytes.fromhex("0904d00034")


def text(it):
    return it.encode("utf-16-le")


def packet(kind, data, status=LAST, number=1):
    """One packet (2.2.3.1): its type, its status and its place in the message."""
    return struct.pack(">BBHHBB", kind, status, HEADER + len(data), 0, number % 256, 0) + data


def packets(kind, data, first=0, last=LAST, size=SIZE):
    """A message in packets of this size: status bits of its first packet, and of its last one."""
    room = size - HEADER
    places = range(0, max(len(data), 1), room)
    return [packet(kind, data[at:at + room], (first if at == 0 else 0) | (last if at + room >= len(data) else 0),
                   number) for number, at in enumerate(places, 1)]


def prelogin(encryption):
    """PRELOGIN (2.2.6.5) with the version 16.0, this word of encryption, the default instance, thread 0, no MARS."""
    values = [struct.pack(">BBHH", 16, 0, 0, 0), bytes([encryption]), b"\0", bytes(4), b"\0"]
    table, place = b"", 5 * len(values) + 1
    for option, value in enumerate(values):
        table += struct.pack(">BHH", option, place, len(value))
        place += len(value)
    return table + b"\xff" + b"".join(values)


def prelogin_encryption(data):
    """The word of encryption in PRELOGIN's answer, NOT_SUP where it has none."""
    for at in range(0, len(data), 5):
        if data[at] == 0xFF:
            break
        option, place, size = struct.unpack_from(">BHH", data, at)
        if option == 1 and size == 1:
            return data[place]
    return NOT_SUP


def obscured(password):
    """A password as LOGIN7 has it: the halves of each byte changed over, and A5 over that (2.2.6.4)."""
    return bytes(((it << 4 | it >> 4) & 0xFF) ^ 0xA5 for it in text(password))


def login7(user, password, database, server, features=b""):
    """LOGIN7 (2.2.6.4) of TDS 7.4, with a login by name and password, which asks for these features."""
    texts = [text("tdsprobe"), text(user), obscured(password), text("tdsprobe"), text(server), b"", text("tdsprobe"),
             b"", text(database)]
    if features:
        # the place of the features, which stand behind all
        texts[5] = struct.pack("<I", 94 + 4 + sum(map(len, texts)))
    place, places, rest = 94, b"", b""
    for at, it in enumerate(texts):
        places += struct.pack("<HH", place + len(rest), len(it) if at == 5 else len(it) // 2)
        rest += it
    end = struct.pack("<HH", place + len(rest), 0)
    # the options: database and language must be as asked, ANSI settings as of ODBC
    fixed = struct.pack("<IIIIIBBBBiI", 0x74000004, SIZE, 0, 0, 0, 0xE0, 0x03, 0, 0x10 if features else 0, 0, 0x0409)
    body = fixed + places + bytes(6) + end + end + end + bytes(4) + rest + features
    return struct.pack("<I", len(body) + 4) + body


def headers(descriptor):
    """ALL_HEADERS with the transaction's descriptor alone (2.2.5.3.2)."""
    return struct.pack("<IIHQI", 22, 18, 2, descriptor, 1)


def batch(words, descriptor=0):
    """The data of a batch (2.2.6.7)."""
    return headers(descriptor) + text(words)


def manager(request, payload, descriptor=0):
    """The data of a transaction manager request (2.2.6.9)."""
    return headers(descriptor) + struct.pack("<H", request) + payload


def name(it):
    return bytes([len(text(it))]) + text(it)


def begin(descriptor=0, isolation=0, named=""):
    return manager(5, bytes([isolation]) + name(named), descriptor)


def commit(descriptor=0, begins=False):
    return manager(7, name("") + (b"\x01" + bytes([0]) + name("") if begins else b"\0"), descriptor)


def rollback(descriptor=0, named=""):
    return manager(8, name(named) + b"\0", descriptor)


def save(descriptor, named):
    return manager(9, name(named), descriptor)


def integer(value=None, is_output=False):
    """A parameter without a name, of INTN (2.2.6.6, 2.2.5.5)."""
    held = b"\0" if value is None else b"\x04" + struct.pack("<i", value)
    return bytes([0, int(is_output), 0x26, 4]) + held


def words(value):
    """A parameter without a name, of NVARCHAR(4000)."""
    data = text(value)
    return b"\0\0\xe7" + struct.pack("<H", 8000) + COLLATION + struct.pack("<H", len(data)) + data


def call(procedure, *parameters):
    """One call of an RPC: of a procedure by its number or its name."""
    if isinstance(procedure, int):
        head = struct.pack("<HH", 0xFFFF, procedure)
    else:
        head = struct.pack("<H", len(procedure)) + text(procedure)
    return head + bytes(2) + b"".join(parameters)


def rpc(calls, descriptor=0):
    """The data of an RPC message of these calls (2.2.6.6)."""
    return headers(descriptor) + NEXT_CALL.join(calls)
