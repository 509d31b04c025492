"""What tests/serving looks at of values: literals, `cast` and `convert`, parameters, transactions within one another,
sessions' numbers. Types and values are read here as MS-TDS 2.2.5.4 to 2.2.5.6 lays them out."""

import json
import struct
import subprocess
import time

from cases import DATA, rows
from peers import Server, batch, connect, exactly, login, message, packet, request

SERVE = f"{DATA}/serve"
COLLATION = bytes.fromhex("0904d00034")
MEGABYTE = 1 << 20

# How many bytes each type has that is read here, and in how many its values say how long they are; 8 for chunks.
TYPES = {0x26: (2, 1), 0x28: (1, 1), 0x2A: (2, 1), 0x68: (2, 1), 0x6A: (4, 1), 0x6C: (4, 1), 0x6F: (2, 1),
         0xA5: (3, 2), 0xA7: (8, 2), 0xAD: (3, 2), 0xE7: (8, 2), 0xEF: (8, 2), 0xF1: (2, 8)}


def kind_at(data, at):
    """The bytes of the type that stands there, and in how many its values say how long they are."""
    size, counted = TYPES[data[at]]
    kind = data[at:at + size]
    return kind, 8 if size in (3, 8) and kind[1:3] == b"\xff\xff" else counted


def value_at(data, at, counted):
    """The bytes of the value that stands there, with those that say how long it is."""
    front = data[at:at + counted]
    if set(front) == {0xFF} and counted > 1:
        return front
    if counted < 8:
        return data[at:at + counted + int.from_bytes(front, "little")]
    end = at + 8
    while count := int.from_bytes(data[end:end + 4], "little"):
        end += 4 + count
    return data[at:end + 4]


def told(data):
    """The lines of an answer's tokens: of a row each column's type and value, in hexadecimal digits."""
    at, columns = 0, []
    while at < len(data):
        kind = data[at]
        if kind == 0x81:
            count, at, columns = struct.unpack_from("<H", data, at + 1)[0], at + 3, []
            for _ in range(count):
                columns.append(kind_at(data, at + 6))
                at += 6 + len(columns[-1][0])
                at += 1 + 2 * data[at]
        elif kind == 0xD1:
            at += 1
            for it, counted in columns:
                value = value_at(data, at, counted)
                at += len(value)
                yield f"{it.hex()} {value.hex()}"
        elif kind in (0xFD, 0xFE, 0xFF):
            at += 13
        elif kind == 0x79:
            at += 5
        else:
            size = struct.unpack_from("<H", data, at + 1)[0]
            if kind == 0xAA:
                number, _, units = struct.unpack_from("<iHH", data, at + 3)
                yield f"error {number} {data[at + 11:at + 11 + 2 * units].decode('utf-16le')}"
            at += 3 + size


class Asker:
    """A client that asks, and is told of types and values. `transaction` is the descriptor of its own."""

    def __init__(self, port):
        self.link = connect(port)
        self.link.sendall(login())
        message(self.link)
        self.transaction = 0

    def told(self, sent):
        """The lines of the answer to these bytes."""
        for at in range(0, len(sent), 65536):
            self.link.sendall(sent[at:at + 65536])
        data = message(self.link)
        at = 0
        # ENVCHANGE 8 to 10 (MS-TDS 2.2.7.9): the transaction begins or ends
        while data[at:at + 1] == b"\xe3" and data[at + 3] in (8, 9, 10):
            self.transaction = int.from_bytes(data[at + 5:at + 5 + data[at + 4]], "little")
            at += 3 + int.from_bytes(data[at + 1:at + 3], "little")
        return list(told(data))

    def ask(self, text):
        return self.told(request(text, self.transaction))

    def call(self, text, *parameters):
        """sp_executesql of a text with parameters, each a name, its type and its value."""
        return self.told(called(text, parameters))


def in_packets(kind, data, size=4096):
    """A message in packets of this size (MS-TDS 2.2.3.1)."""
    parts = [data[at:at + size - 8] for at in range(0, len(data), size - 8)]
    return b"".join(packet(kind, part, at == len(parts) - 1) for at, part in enumerate(parts))


def units(text):
    return text.encode("utf-16le")


def parameter(name, kind, value):
    """A parameter of a call (MS-TDS 2.2.6.6)."""
    return bytes([len(name)]) + units(name) + b"\0" + kind + value


def in_chunks(value, size=8000):
    """A value in chunks (MS-TDS 2.2.5.2.3)."""
    chunks = [value[at:at + size] for at in range(0, len(value), size)]
    return struct.pack("<Q", len(value)) + b"".join(
        struct.pack("<I", len(it)) + it for it in chunks) + bytes(4)


def called(text, parameters):
    headers = struct.pack("<IIHQI", 22, 18, 2, 0, 1)
    long_text = b"\xe7\x40\x1f" + COLLATION
    shown = struct.pack("<H", 2 * len(text)) + units(text)
    front = headers + b"\xff\xff\x0a\0\0\0" + parameter("", long_text, shown) + parameter("", long_text, b"\0\0")
    return in_packets(3, front + b"".join(parameter(*it) for it in parameters))


def queries(program, cases):
    """What each text, with its parameters, is told: tests/data/serve/queries.txt."""
    with Server(program) as server:
        for name, given, wanted in rows(f"{SERVE}/queries.txt"):
            asker, lines = Asker(server.port), []
            parameters = []
            for line in given.splitlines():
                word, _, rest = line.partition(": ")
                if word == "parameter":
                    it, kind, value = rest.split()
                    parameters.append((it, bytes.fromhex(kind), bytes.fromhex(value)))
                elif parameters:
                    lines += asker.call(rest, *parameters)
                else:
                    lines += asker.ask(rest)
            cases.same(name, "".join(f"{line}\n" for line in lines), wanted)
            asker.link.close()


def long_parameters(program, cases):
    """Parameters of a megabyte come back byte by byte, with their own types; longer ones are an error that names the
    limit; one that came in chunks is told in these."""
    text, raw, xml = b"\xe7\xff\xff" + COLLATION, b"\xa5\xff\xff", b"\xf1\0"
    with Server(program) as server:
        for name, kind, value in (("nvarchar(max)", text, b"a\0" * (MEGABYTE // 2)), ("varbinary(max)", raw, b"\x07" * MEGABYTE),
                                  ("xml", xml, units("<a>" + "b" * 20_000 + "</a>")), ("an empty text", text, b""),
                                  ("5,000 units", text, b"\xac\x20" * 5000)):
            value = in_chunks(value)
            asker = Asker(server.port)
            cases.same(f"a parameter comes back: {name}", asker.call("select @p", ("@p", kind, value)),
                       [f"{kind.hex()} {value.hex()}"])
            cases.same(f"behind it: {name}", asker.ask("select 1"), ["2604 0401000000"])
            asker.link.close()
        for name, kind, count in (("nvarchar(max)", text, MEGABYTE + 2), ("varbinary(max)", raw, MEGABYTE + 1), ("xml", xml, 2 * MEGABYTE)):
            asker = Asker(server.port)
            cases.same(f"a parameter that is too long: {name}", asker.call("select @p", ("@p", kind, in_chunks(bytes(count)))),
                       ["error 50006 A parameter may have 1048576 bytes, and a call 1114112."])
            cases.same(f"behind one that is too long: {name}", asker.ask("select 1"), ["2604 0401000000"])
            asker.link.close()
        asker = Asker(server.port)
        half = ("@p", raw, in_chunks(bytes(MEGABYTE // 2)))
        cases.same("an answer that is too long", asker.call("select @p, @p, @p", half),
                   ["error 50005 The answer has more than 1114112 bytes."])
        asker.link.close()


def sessions(program, cases):
    """Each connection's number, in `select @@spid` and in the packets of its answers, its login's too (MS-TDS
    2.2.3.1.4); the time of `getdate()`; and the log's word for a call."""
    with subprocess.Popen([program, "127.0.0.1:0", "--log-json", "--until-input-ends"], stdin=subprocess.PIPE,
                          stderr=subprocess.PIPE, text=True, encoding="ascii") as child:
        port = int(child.stderr.readline().rpartition(":")[2])
        for number in (51, 52, 53):
            link = connect(port)
            for sent in (login(), batch("select @@spid"), batch("rows 1 1"), packet(6, b"")):
                link.sendall(sent)
                header = exactly(link, 8)
                data = exactly(link, struct.unpack(">H", header[2:4])[0] - 8)
                cases.same(f"packets of session {number}", struct.unpack(">H", header[4:6])[0], number)
                if sent == batch("select @@spid"):
                    cases.same(f"@@spid of session {number}", list(told(data)), [f"2604 04{number:02x}000000"])
            link.close()
        asker = Asker(port)
        before = time.time()
        line = asker.ask("select getdate(), sysdatetime()")
        after = time.time()
        days, ticks = struct.unpack("<iI", bytes.fromhex(line[0].split()[1])[1:])
        cases.check("getdate()", before - 1 <= (days - 25567) * 86400 + ticks / 300 <= after + 1, line)
        value = bytes.fromhex(line[1].split()[1])[1:]
        seconds = int.from_bytes(value[:5], "little") / 1e7 + (int.from_bytes(value[5:], "little") - 719162) * 86400
        cases.check("sysdatetime()", before - 1 <= seconds <= after + 1, line)
        asker.call("select @p", ("@p", b"\x26\x04", b"\x04\x05\0\0\0"))
        asker.link.close()
        child.stdin.close()
        kinds = [json.loads(it).get("kind") for it in child.stderr.read().splitlines()[:-1]]
    cases.same("the log's words for a batch and a call", [it for it in kinds if it][-2:], ["batch", "RPC"])
