"""Reads the tokens of a server's message (MS-TDS 2.2.7), as far as the probes need them.

A recording's evidence are its bytes. What is read here leads the probes (which transaction is open, whether an
attention was acknowledged), and gives the lines by which a human finds his way in a recording.
"""

import struct
from dataclasses import dataclass

DONE, DONEPROC, DONEINPROC = 0xFD, 0xFE, 0xFF
ERROR, INFO, LOGINACK, ENVCHANGE, COLMETADATA, ROW, NBCROW = 0xAA, 0xAB, 0xAD, 0xE3, 0x81, 0xD1, 0xD2
RETURNSTATUS, RETURNVALUE, FEATUREEXTACK = 0x79, 0xAC, 0xAE
# Tokens with a length of 2 bytes, and of 4.
SHORT = {0xA4: "tabname", 0xA5: "colinfo", 0xA9: "order", ERROR: "error", INFO: "info", LOGINACK: "loginack",
         ENVCHANGE: "env", 0xED: "sspi"}
LONG = {0xE4: "sessionstate", 0xEE: "fedauthinfo"}
DONES = {DONE: "done", DONEPROC: "doneproc", DONEINPROC: "doneinproc"}
# Types by what a value is: so many bytes; or a count in 1 byte and so many, with so many bytes of the type's own.
FIXED = {0x1F: 0, 0x30: 1, 0x32: 1, 0x34: 2, 0x38: 4, 0x3A: 4, 0x3B: 4, 0x7A: 4, 0x3C: 8, 0x3D: 8, 0x3E: 8, 0x7F: 8}
COUNTED = {0x24: 1, 0x26: 1, 0x68: 1, 0x6D: 1, 0x6E: 1, 0x6F: 1, 0x28: 0, 0x29: 1, 0x2A: 1, 0x2B: 1, 0x37: 3, 0x3F: 3,
           0x6A: 3, 0x6C: 3}
# Types with a count in 2 bytes, by the bytes after their size: FFFF there says that values come in parts.
WIDE = {0xA5: 0, 0xAD: 0, 0xA7: 5, 0xAF: 5, 0xE7: 5, 0xEF: 5}
VARIANT = 0x62
PARTS = 0xFFFF


class Cut(Exception):
    """The bytes end inside a token."""


class Unknown(Exception):
    """A token or a type that isn't read here."""


@dataclass(frozen=True)
class Token:
    kind: int
    place: int
    data: bytes
    line: str

    @property
    def status(self):
        """The status of a DONE of any kind, else None."""
        return struct.unpack_from("<H", self.data, 1)[0] if self.kind in DONES else None

    @property
    def acknowledges(self):
        """Whether it is a DONE with the attention's bit (2.2.7.6)."""
        return self.kind in DONES and bool(self.status & 0x20)


class Reader:
    """Goes over bytes."""

    def __init__(self, data, place=0):
        self.data, self.place = data, place

    def take(self, count):
        if self.place + count > len(self.data):
            raise Cut
        self.place += count
        return self.data[self.place - count:self.place]

    def number(self, size):
        return int.from_bytes(self.take(size), "little")

    def units(self, size=1):
        """A text after a count of units in so many bytes."""
        return self.take(2 * self.number(size)).decode("utf-16-le", "replace")

    def type(self):
        """A type (2.2.5.4), as what reads a value of it."""
        kind = self.number(1)
        if kind in FIXED:
            return lambda it: it.take(FIXED[kind])
        if kind in COUNTED:
            self.take(COUNTED[kind])
            return lambda it: it.take(it.number(1))
        if kind == VARIANT:
            self.take(4)
            return lambda it: it.take(it.number(4))
        if kind not in WIDE:
            raise Unknown(f"type {kind:02x}")
        most = self.number(2)
        self.take(WIDE[kind])
        return Reader.in_parts if most == PARTS else Reader.wide

    def wide(self):
        size = self.number(2)
        return b"" if size == PARTS else self.take(size)

    def in_parts(self):
        """A value in parts (2.2.5.2.3)."""
        if self.number(8) == 2**64 - 1:
            return b""
        value = bytearray()
        while size := self.number(4):
            value += self.take(size)
        return bytes(value)

    def columns(self):
        """COLMETADATA (2.2.7.4) after its token byte: what reads each column's value, and the names."""
        count = self.number(2)
        if count == 0xFFFF:
            return [], []
        readers, names = [], []
        for _ in range(count):
            self.take(6)
            readers.append(self.type())
            names.append(self.units())
        return readers, names


def shown(value):
    """A value in a line: short, in hexadecimal digits."""
    return value.hex() if len(value) <= 16 else f"{value[:16].hex()}.. {len(value)} bytes"


def env_line(it):
    """ENVCHANGE (2.2.7.9): its type, and its values as they lie there."""
    kind = it.number(1)
    if kind in (1, 2, 3, 4, 5, 6, 13, 19):
        return f"env {kind} {it.units()!r} {it.units()!r}"
    return f"env {kind} {it.data[it.place:].hex()}"


def message_line(it, kind):
    """ERROR or INFO (2.2.7.10, 2.2.7.13)."""
    number, state, level = it.number(4), it.number(1), it.number(1)
    return f"{SHORT[kind]} {number} state {state} class {level} {it.units(2)!r}"


def login_line(it):
    """LOGINACK (2.2.7.14): the program's name and version."""
    it.take(5)
    named, (major, minor, high, low) = it.units(), it.take(4)
    return f"loginack {named!r} {major}.{minor}.{high << 8 | low}"


def short_line(kind, body):
    it = Reader(body)
    try:
        if kind == ENVCHANGE:
            return env_line(it)
        if kind in (ERROR, INFO):
            return message_line(it, kind)
        if kind == LOGINACK:
            return login_line(it)
    except Cut:
        return f"{SHORT[kind]} unclear"
    return f"{SHORT[kind]} {len(body)}"


class Tokens:
    """The tokens of one message: those that ended, and why it went no further, if it didn't."""

    def __init__(self, data):
        self.found, self.stopped, self.readers = [], None, []
        it = Reader(data)
        while it.place < len(data):
            begun = it.place
            try:
                line = self.token(it)
            except Cut:
                self.stopped = f"cut at {begun} of {len(data)}"
                break
            except Unknown as what:
                self.stopped = f"unread at {begun}: {what}"
                break
            self.found.append(Token(data[begun], begun, data[begun:it.place], line))

    def token(self, it):
        """Passes one token, and gives its line."""
        kind = it.number(1)
        if kind in SHORT:
            return short_line(kind, it.take(it.number(2)))
        if kind in LONG:
            return f"{LONG[kind]} {len(it.take(it.number(4)))}"
        if kind in DONES:
            status, command, count = it.number(2), it.number(2), it.number(8)
            return f"{DONES[kind]} {status:04x} {command} {count}"
        if kind == RETURNSTATUS:
            return f"status {int.from_bytes(it.take(4), 'little', signed=True)}"
        if kind == COLMETADATA:
            self.readers, names = it.columns()
            return f"columns {names}"
        if kind in (ROW, NBCROW):
            return self.row(it, kind)
        return self.seldom(it, kind)

    def row(self, it, kind):
        nulls = it.take((len(self.readers) + 7) // 8) if kind == NBCROW else b""
        values = [shown(read(it)) for at, read in enumerate(self.readers)
                  if not nulls or not nulls[at // 8] >> at % 8 & 1]
        return "row " + ", ".join(values)

    def seldom(self, it, kind):
        if kind == RETURNVALUE:
            it.take(2)
            named = it.units()
            it.take(7)
            return f"value {named!r} {shown(it.type()(it))}"
        if kind == FEATUREEXTACK:
            while it.number(1) != 0xFF:
                it.take(it.number(4))
            return "featureextack"
        raise Unknown(f"token {kind:02x}")
