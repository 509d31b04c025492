"""What a server with session recovery and its applications say, as bytes: requests, and an answer's tokens.

It is written from MS-TDS alone (2.2.6, 2.2.7), and calls nothing of this repository.
"""

import struct

BATCH, CALL, ATTENTION, LOAD = 1, 3, 6, 7
# Bits of a request's status (MS-TDS 2.2.3.1.2).
END, IGNORED, RESET, RESET_BUT_TRANSACTION = 1, 2, 8, 16
# Bits of DONE's status, and the tokens DONE, DONEPROC (MS-TDS 2.2.7.6, 2.2.7.7).
MORE, COUNTED, ACKNOWLEDGED, IN_BATCH = 1, 0x10, 0x20, 0x80
DONE, DONE_PROCEDURE = 0xFD, 0xFE
# Numbers of procedures (MS-TDS 2.2.6.6).
EXECUTE_SQL, PREPARE, EXECUTE, PREPARE_AND_EXECUTE, UNPREPARE = 10, 11, 12, 13, 15
# The same by their names, and the parameter of those that prepare: a handle, which is returned.
BY_NAME = {"sp_prepare": PREPARE, "sp_execute": EXECUTE, "sp_prepexec": PREPARE_AND_EXECUTE, "sp_unprepare": UNPREPARE}
HANDLE = b"\x00\x01\x26\x04\x00"
# Session recovery among the features, and what ends them (MS-TDS 2.2.6.4, 2.2.7.11).
RECOVERY, FEATURES_END = 1, 0xFF


def text_of(units):
    return units.encode("utf-16le")


# ---- An answer's tokens


def columns():
    """COLMETADATA of one INT4 that is called n."""
    return b"\x81\x01\x00" + bytes(4) + b"\x00\x00" + b"\x38" + b"\x01" + text_of("n")


def rows(first, count):
    return columns() + b"".join(b"\xd1" + struct.pack("<i", first + at) for at in range(count))


def wide_rows(count):
    """So many rows of 1,000 bytes."""
    head = b"\x81" + struct.pack("<HIHBHB", 1, 0, 0, 0xA5, 8000, 0)
    return head + (b"\xd1" + struct.pack("<H", 1000) + bytes(1000)) * count


def error(number):
    body = struct.pack("<IBBH", number, 1, 16, 1) + text_of("e") + b"\x00\x00" + struct.pack("<I", 1)
    return b"\xaa" + struct.pack("<H", len(body)) + body


def info(number):
    body = struct.pack("<IBBH", number, 1, 0, 1) + text_of("i") + b"\x00\x00" + struct.pack("<I", 1)
    return b"\xab" + struct.pack("<H", len(body)) + body


def change(kind, new, old=b""):
    """ENVCHANGE, whose values have a count of bytes, or of units (MS-TDS 2.2.7.9)."""
    unit = 2 if kind in (1, 2) else 1
    body = bytes([kind, len(new) // unit]) + new + bytes([len(old) // unit]) + old
    return b"\xe3" + struct.pack("<H", len(body)) + body


def done(status=0, kind=DONE, count=0):
    return bytes([kind]) + struct.pack("<HHQ", status, 0, count)


def return_status(value=0):
    return b"\x79" + struct.pack("<i", value)


def returned(value):
    """RETURNVALUE, an INTN of four bytes (MS-TDS 2.2.7.19)."""
    head = struct.pack("<HB", 1, 0) + b"\x01" + bytes(4) + bytes(2) + b"\x26\x04"
    return b"\xac" + head + b"\x04" + struct.pack("<i", value)


def returned_as(how, value):
    """What is returned for a handle: once, never, twice, as a number of eight bytes, or by a name."""
    long = b"\xac" + struct.pack("<HB", 1, 0) + b"\x01" + bytes(6) + b"\x26\x08\x08" + struct.pack("<q", value)
    named = b"\xac" + struct.pack("<HB", 1, 1) + text_of("h") + returned(value)[4:]
    return {"one": returned(value), "none": b"", "two": 2 * returned(value), "long": long, "named": named}[how]


def state(number, value):
    """A state by its number (StateId, MS-TDS 2.2.7.21)."""
    size = bytes([len(value)]) if len(value) < 255 else b"\xff" + struct.pack("<I", len(value))
    return bytes([number]) + size + value


def session_state(sequence, is_recoverable, states):
    body = struct.pack("<IB", sequence, int(is_recoverable)) + states
    return b"\xe4" + struct.pack("<I", len(body)) + body


def let_in(database, language, states=None):
    """What a login is answered, where session recovery is acknowledged with these initial states."""
    body = b"\x01\x74\x00\x00\x04" + bytes(5)
    told = change(1, text_of(database)) + change(2, text_of(language)) + change(7, b"\x09\x04\xd0\x00\x34")
    told += b"\xad" + struct.pack("<H", len(body)) + body
    if states is not None:
        told += b"\xae" + struct.pack("<BI", RECOVERY, len(states)) + states + bytes([FEATURES_END])
    return told + done()


class Answer:
    """What an answer's tokens say, one behind another: each a name and what is compared of it."""

    def __init__(self, data):
        self.data, self.at, self.columns = data, 0, 0

    def tokens(self):
        while self.at < len(self.data):
            yield self.token(self.data[self.at])

    def taken(self, count):
        self.at += count
        if self.at > len(self.data):
            raise OSError(f"a token goes beyond its answer's end: {self.data[:60].hex()}")
        return self.data[self.at - count:self.at]

    def behind_length(self, form):
        """The token's bytes behind its length, which has this form."""
        size = struct.calcsize(form)
        return self.taken(struct.unpack(form, self.taken(1 + size)[1:])[0])

    def token(self, kind):
        if kind == 0x81:
            self.columns = struct.unpack("<H", self.taken(3)[1:])[0]
            for _ in range(self.columns):
                self.taken(2 * self.taken(8)[7])
            return "columns", self.columns
        if kind == 0xD1:
            return "row", *struct.unpack(f"<{self.columns}i", self.taken(1 + 4 * self.columns)[1:])
        if kind == 0x79:
            return "status", struct.unpack("<i", self.taken(5)[1:])[0]
        if kind == 0xAC:
            units = self.taken(4)[3]
            self.taken(2 * units + 7)
            count = self.taken(2)[1]
            return "returned", int.from_bytes(self.taken(1 + count)[1:], "little", signed=True)
        if kind in (DONE, DONE_PROCEDURE):
            return "done", kind, struct.unpack("<H", self.taken(13)[1:3])[0]
        if kind == 0xE3:
            body = self.behind_length("<H")
            size = body[1] * (2 if body[0] in (1, 2) else 1)
            return "change", body[0], body[2:2 + size]
        if kind == 0xAA:
            return "error", struct.unpack("<I", self.behind_length("<H")[:4])[0]
        if kind == 0xAD:
            return "let in", self.behind_length("<H")
        if kind == 0xE4:
            return "state", self.behind_length("<I")
        if kind == 0xAE:
            return "features", self.taken(len(self.data) - self.at - 13)[1:]
        raise OSError(f"token {kind:02x} at {self.at} of {self.data[:60].hex()}")


def tokens(data):
    return list(Answer(data).tokens())


# ---- Requests


def packets(kind, data, status=END, most=4088):
    """A message in packets: its first one says the reset, its last one the end."""
    parts = [data[at:at + most] for at in range(0, len(data), most)] or [b""]
    out = []
    for at, part in enumerate(parts):
        bits = status & ~(END | IGNORED) if at == 0 else 0
        bits |= status & (END | IGNORED) if at + 1 == len(parts) else 0
        out.append(struct.pack(">BBHHBB", kind, bits, len(part) + 8, 0, at + 1 & 0xFF, 0) + part)
    return b"".join(out)


def headers(descriptor):
    """ALL_HEADERS with this transaction (MS-TDS 2.2.5.3)."""
    return struct.pack("<IIHQI", 22, 18, 2, descriptor, 1)


def behind_headers(data):
    """The transaction of a request's headers, and what stands behind them."""
    size, descriptor = struct.unpack_from("<I", data)[0], struct.unpack_from("<Q", data, 10)[0]
    return descriptor, data[size:]


def parameter(value):
    """An INTN, or an NVARCHAR(4000)."""
    if isinstance(value, int):
        return b"\x00\x00\x26\x04\x04" + struct.pack("<i", value)
    text = text_of(value)
    return b"\x00\x00\xe7" + struct.pack("<H", 8000) + bytes(5) + struct.pack("<H", len(text)) + text


def calls_body(calls):
    """Several calls of one request: each its number or its name, and its parameter (MS-TDS 2.2.6.6)."""
    parts = []
    for name, value in calls:
        head = struct.pack("<HH", 0xFFFF, name) if isinstance(name, int) else struct.pack("<H", len(name)) + text_of(name)
        number = BY_NAME.get(name, name)
        handle = HANDLE if number in (PREPARE, PREPARE_AND_EXECUTE) else b""
        parts.append(head + b"\x00\x00" + handle + parameter(value))
    return b"\xff".join(parts)


def calls_of(body):
    """The calls of a request's body, as `calls_body` takes them."""
    calls, at = [], 0
    while at < len(body):
        count = struct.unpack_from("<H", body, at)[0]
        if count == 0xFFFF:
            name, at = struct.unpack_from("<H", body, at + 2)[0], at + 4
        else:
            name, at = body[at + 2:at + 2 + 2 * count].decode("utf-16le"), at + 2 + 2 * count
        at += 2
        if body[at:at + 5] == HANDLE:
            at += 5
        # Of several parameters the last one counts.
        while at < len(body) and body[at] != 0xFF:
            value, at = parameter_at(body, at + 2)
        calls.append((name, value))
        at += 1
    return calls


def parameter_at(body, at):
    """A parameter's value, whose type stands here, and where it ends."""
    if body[at] == 0x26:
        return struct.unpack_from("<i", body, at + 3)[0], at + 7
    size = struct.unpack_from("<H", body, at + 8)[0]
    return body[at + 10:at + 10 + size].decode("utf-16le"), at + 10 + size


def asks_recovery(login):
    """Whether LOGIN7 asks for session recovery, and the data that it brings for it; None where it doesn't."""
    if not login[27] & 0x10:
        return None
    at = struct.unpack_from("<I", login, struct.unpack_from("<H", login, 56)[0])[0]
    while login[at] != FEATURES_END:
        size = struct.unpack_from("<I", login, at + 1)[0]
        if login[at] == RECOVERY:
            return login[at + 5:at + 5 + size]
        at += 5 + size
    return None
