"""Answers through Wireshark's dissector (`tshark`): where its token tree says that each token stands."""
import os
import struct
import subprocess

HERE = f"{os.path.dirname(os.path.dirname(os.path.abspath(__file__)))}/beside/wire_peers"
KINDS = {
    "colmetadata": 0x81, "done": 0xFD, "doneproc": 0xFE, "doneinproc": 0xFF, "envchange": 0xE3, "error": 0xAA,
    "featureextack": 0xAE, "info": 0xAB, "loginack": 0xAD, "nbcrow": 0xD2, "offset": 0x78, "order": 0xA9,
    "returnstatus": 0x79, "row": 0xD1, "sessionstate": 0xE4, "sspi": 0xED, "unknown_tds_token": None,
}
SERVER, CLIENT = 1433, 50000


def packets(data, size):
    """The packets of a message (2.2.3.1): type 04, status 01 in the last one, numbers from 1."""
    pieces = [data[at:at + size] for at in range(0, len(data), size)] or [b""]
    for number, piece in enumerate(pieces, 1):
        status = 1 if number == len(pieces) else 0
        yield struct.pack(">BBHHBB", 4, status, 8 + len(piece), 0, number % 256, 0) + bytes(piece)


class Capture:
    """A capture of one connection, of which the server alone speaks."""

    def __init__(self, path):
        self.file = open(path, "wb")
        self.file.write(struct.pack("<IHHiIII", 0xA1B2C3D4, 2, 4, 0, 0, 262144, 1))
        self.frames, self.sent = 0, 1

    def put(self, data):
        """A segment, in a frame of its own."""
        tcp = struct.pack(">HHIIBBHHH", SERVER, CLIENT, self.sent % 2**32, 1, 0x50, 0x18, 65535, 0, 0)
        ip = struct.pack(">BBHHHBBH4s4s", 0x45, 0, 40 + len(data), self.frames % 65536, 0, 64, 6, 0, b"\x0a\0\0\1", b"\x0a\0\0\2")
        frame = b"\2\0\0\0\0\2" + b"\2\0\0\0\0\1" + b"\x08\0" + ip + tcp + data
        self.file.write(struct.pack("<IIII", self.frames // 1000, self.frames % 1000, len(frame), len(frame)) + frame)
        self.sent += len(data)
        self.frames += 1

    def close(self):
        self.file.close()


def dissected(answers, sizes, path):
    """For each answer, handed over in packets of so many bytes: its tokens as (place, kind, length), kind None where
    Wireshark knows no such token, and whether it calls the answer malformed."""
    capture, last = Capture(path), {}
    for which, (answer, size) in enumerate(zip(answers, sizes)):
        for packet in packets(answer.data, size):
            capture.put(packet)
        last[capture.frames] = which
    capture.close()
    words = ["tshark", "-r", path, "-q", "-X", f"lua_script:{HERE}/tokens.lua"]
    words += ["-o", "tds.protocol_type:TDS 7.4", "-d", f"tcp.port=={SERVER},tds"]
    found = [([], False) for _ in last]
    run = subprocess.run(words, check=True, stdout=subprocess.PIPE, stderr=subprocess.DEVNULL, text=True)
    for line in run.stdout.splitlines():
        number, malformed, *tokens = line.split(" ")
        if int(number) in last:
            which = last[int(number)]
            found[which] = places(tokens, len(answers[which].data)), malformed == "1"
    return found


def places(words, size):
    """Tokens in order, their places counted from the first one. One ends where the next begins, the last one where the
    message does: had it ended before that, there would be another one, and had it gone on, it would be malformed."""
    tokens = sorted(((int(place), KINDS[name]) for place, _, name in (word.partition(":") for word in words)), key=lambda it: it[0])
    first = tokens[0][0] if tokens else 0
    ends = [place - first for place, _ in tokens[1:]] + [size]
    return [(place - first, kind, end - place + first) for (place, kind), end in zip(tokens, ends)]
