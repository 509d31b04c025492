"""A peer that is logged in, and what it sends, for tests/serving_limits."""

import socket
import struct
import time

from peers import PATIENCE, batch, login, packet


class Peer:
    """A peer that is logged in."""

    def __init__(self, port, size=4096, room=None):
        self.link = socket.socket()
        if room:
            self.link.setsockopt(socket.SOL_SOCKET, socket.SO_RCVBUF, room)
        self.link.settimeout(60)
        self.link.connect(("127.0.0.1", port))
        self.link.sendall(login(size=size))
        self.message()

    def message(self):
        """The data of the packets up to the end of a message."""
        data = b""
        while True:
            header = self.exactly(8)
            data += self.exactly(struct.unpack(">H", header[2:4])[0] - 8)
            if header[1] & 1:
                return data

    def exactly(self, count):
        got = b""
        while len(got) < count:
            more = self.link.recv(count - len(got))
            if not more:
                raise OSError("closed")
            got += more
        return got

    def is_served(self):
        """Whether a request is answered by its row."""
        self.link.sendall(batch("rows 7 1"))
        return b"\xd1" + struct.pack("<i", 7) in self.message()

    def closed_after(self, patience):
        """The seconds until it is closed; None where it isn't by then."""
        started = time.time()
        self.link.settimeout(patience)
        try:
            while self.link.recv(65536):
                pass
        except socket.timeout:
            return None
        except OSError:
            pass
        return time.time() - started


def is_served_at(port):
    """Whether one more is served there."""
    try:
        return Peer(port).is_served()
    except OSError:
        return False


def comes_to(holds):
    """Whether this holds at last."""
    until = time.monotonic() + 2 * PATIENCE
    while not (found := holds()) and time.monotonic() < until:
        time.sleep(0.1)
    return found


def nvarchar(name, units):
    """A parameter of a call, an NVARCHAR(4000) of so many units (MS-TDS 2.2.6.6)."""
    text = units.encode("utf-16le")
    return (bytes([len(name)]) + name.encode("utf-16le") + b"\0\xe7\x40\x1f\x09\x04\xd0\0\x34"
            + struct.pack("<H", len(text)) + text)


def call(procedure, *parameters):
    """A call of the procedure of this number, in packets of 4,096 bytes."""
    data = (struct.pack("<IIHQI", 22, 18, 2, 0, 1) + struct.pack("<HHH", 0xFFFF, procedure, 0)
            + b"".join(parameters))
    parts = [data[at:at + 4088] for at in range(0, len(data), 4088)]
    return b"".join(packet(3, part, int(part is parts[-1])) for part in parts)
