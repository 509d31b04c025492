"""Peers of tdstls: the program itself with what it logs, and peers that speak TLS by Python's own ssl.

It is written from MS-TDS alone. In TDS 7 the TLS handshake goes inside PRELOGIN packets (MS-TDS 2.2.6.5,
3.2.5.1), and behind it TLS is on the socket itself; TDS 8.0 is TLS first, with the protocol tds/8.0.
"""

import signal
import socket
import ssl
import struct
import subprocess
import threading
import time

from peers import ATTENTION, PATIENCE, batch, connect, exactly, message, packet, prelogin

# The data of a packet of 4,096 bytes.
ROOM = 4088
# What no log may have: they are the names in each login here.
SECRETS = ("benutzerin", "geheimnis")
OFF, ON, NOT_SUP, REQ = range(4)


def login(version=0x74000004, more=0):
    """LOGIN7 with the secrets behind what has no length of its own, in clear as no driver writes them, and
    so many bytes more, in as many packets as it needs."""
    text = "".join(SECRETS).encode() + "".join(SECRETS).encode("utf-16le") + bytes(more)
    data = struct.pack("<III", 94 + len(text), version, 4096) + bytes(82) + text
    return b"".join(packet(0x10, data[at:at + ROOM], int(at + ROOM >= len(data))) for at in range(0, len(data), ROOM))


class Tdstls:
    """A tdstls with its lines."""

    path = None

    def __init__(self, *words, address="127.0.0.1:0", **more):
        self.lines, self.heard = [], threading.Condition()
        self.child = subprocess.Popen([self.path, words[0], "-listen", address, *words[1:]], stdin=subprocess.DEVNULL,
                                      stderr=subprocess.PIPE, text=True, **more)
        self.reader = threading.Thread(target=self.read, daemon=True)
        self.reader.start()
        line = self.said("listens at=") or ""
        self.port = int(line.split("at=")[1].split()[0].rpartition(":")[2]) if "at=127" in line else None

    def read(self):
        for line in self.child.stderr:
            with self.heard:
                self.lines.append(line.rstrip("\n"))
                self.heard.notify_all()
        with self.heard:
            self.lines.append("(ended)")
            self.heard.notify_all()

    def said(self, text, count=1):
        """The line with this text, once it has come so often; None where it doesn't."""
        until = time.monotonic() + PATIENCE
        with self.heard:
            while True:
                found = [line for line in self.lines if text in line]
                if len(found) >= count:
                    return found[count - 1]
                if self.lines and self.lines[-1] == "(ended)" or not self.heard.wait(max(0, until - time.monotonic())):
                    return None

    def log(self):
        with self.heard:
            return "\n".join(self.lines)

    def signal(self, number):
        self.child.send_signal(number)

    def memory(self):
        """The memory that it has, in KB."""
        with open(f"/proc/{self.child.pid}/status", encoding="ascii") as status:
            return next(int(line.split()[1]) for line in status if line.startswith("VmRSS"))

    def stop(self):
        if self.child.poll() is None:
            self.child.send_signal(signal.SIGTERM)
        self.child.wait()
        self.reader.join()
        self.child.stderr.close()
        return self.child.returncode

    def __enter__(self):
        return self

    def __exit__(self, *_):
        self.signal(signal.SIGKILL)
        self.stop()


def trusting(path):
    """What trusts this certificate alone, for localhost."""
    return ssl.create_default_context(cafile=path)


class Inside:
    """TLS over a socket, whose bytes go in PRELOGIN packets at first, of this size at most."""

    def __init__(self, link, context, size=ROOM):
        self.link, self.size, self.is_wrapped = link, size, True
        self.incoming, self.outgoing = ssl.MemoryBIO(), ssl.MemoryBIO()
        self.tls = context.wrap_bio(self.incoming, self.outgoing, server_hostname="localhost")
        while True:
            try:
                self.tls.do_handshake()
                break
            except ssl.SSLWantReadError:
                self.flush()
                self.fill()
        self.flush()
        self.is_wrapped = False

    def flush(self):
        flight = self.outgoing.read()
        if not self.is_wrapped:
            return self.link.sendall(flight)
        for place in range(0, len(flight), self.size):
            is_last = place + self.size >= len(flight)
            self.link.sendall(packet(0x12, flight[place:place + self.size], int(is_last)))
        return None

    def fill(self):
        if self.is_wrapped:
            header = exactly(self.link, 8)
            if header[0] != 0x12:
                raise OSError(f"a packet of kind {header[0]:#x} in the handshake")
            piece = exactly(self.link, struct.unpack(">H", header[2:4])[0] - 8)
        else:
            piece = self.link.recv(65536)
        if not piece:
            raise OSError("closed")
        self.incoming.write(piece)

    def sendall(self, data):
        self.tls.write(data)
        self.flush()

    def recv(self, count):
        while True:
            try:
                return self.tls.read(count)
            except ssl.SSLWantReadError:
                self.fill()
            except ssl.SSLZeroReturnError:
                return b""

    def close(self):
        self.link.close()


def encryption(data):
    """What ENCRYPTION says in the data of a PRELOGIN (MS-TDS 2.2.6.5)."""
    place = 0
    while data[place] != 0xFF:
        token, start, _ = struct.unpack(">BHH", data[place:place + 5])
        if token == 1:
            return data[start]
        place += 5
    return None


def drive(port, asked, context, size=ROOM, given=None, by=connect):
    """A driver of TDS 7 up to its login: what it reads and writes the login by, what the rest, and what
    ENCRYPTION it was answered."""
    link = by(port)
    link.sendall(given or prelogin(asked))
    answered = encryption(message(link))
    if answered == NOT_SUP:
        return link, link, answered
    inside = Inside(link, context, size)
    return inside, link if answered == OFF else inside, answered


def strict(port, context, protocol="tds/8.0", asked=REQ):
    """A driver of TDS 8.0 up to its login."""
    if protocol:
        context.set_alpn_protocols([protocol])
    link = context.wrap_socket(connect(port), server_hostname="localhost")
    link.sendall(prelogin(asked))
    return link, encryption(message(link))


def is_let_in(data):
    """Whether LOGINACK is in a login's answer (MS-TDS 2.2.7.14): behind ENVCHANGE, ERROR, INFO."""
    while data and data[0] in (0xE3, 0xAA, 0xAB):
        data = data[3 + struct.unpack("<H", data[1:3])[0]:]
    return data[:1] == b"\xad"


def refusal(data):
    """The number and the text of the ERROR that an answer begins with (MS-TDS 2.2.7.10), or None."""
    if data[:1] != b"\xaa":
        return None
    number, _, units = struct.unpack("<iHH", data[3:11])
    return number, data[11:11 + 2 * units].decode("utf-16le")


def rows(link, first):
    """Whether `rows FIRST 3` gives its three rows."""
    link.sendall(batch(f"rows {first} 3"))
    answer = message(link)
    return all(b"\xd1" + struct.pack("<i", first + at) in answer for at in range(3))


def cancels(link):
    """Whether a request is cancelled in its middle and the next one answered rightly."""
    link.sendall(batch(";".join(f"rows {place * 10} 64" for place in range(60))))
    exactly(link, 1)  # its answer has begun
    link.sendall(ATTENTION)
    # what was read of the first header is put back
    data = message(Behind(b"\x04", link))
    # an answer that came to its end before is followed by one that acknowledges alone (MS-TDS 2.2.1.7)
    if not data[-12] & 0x20:
        data = message(link)
    return bool(data[-12] & 0x20) and rows(link, 5)


class Behind:
    """Bytes that come before those of a link."""

    def __init__(self, front, link):
        self.front, self.link = front, link

    def recv(self, count):
        piece, self.front = self.front[:count], self.front[count:]
        return piece or self.link.recv(count)


def over(link):
    """What still comes, up to the end; whatever the end is."""
    got = b""
    try:
        while piece := link.recv(65536):
            got += piece
    except OSError:
        pass
    return got


def hello(version):
    """A ClientHello of TLS that knows no version above this one (RFC 5246 7.4.1.2), with its record."""
    body = struct.pack(">H", version) + bytes(32) + b"\0" + struct.pack(">HH", 2, 0x002F) + b"\x01\0"
    handshake = b"\x01" + struct.pack(">I", len(body))[1:] + body
    return struct.pack(">BHH", 0x16, 0x0301, len(handshake)) + handshake


def options(*all_, end=b"\xff", data=b""):
    """A PRELOGIN of these options, each a token, an offset and a length, and of these data."""
    return packet(0x12, b"".join(struct.pack(">BHH", *it) for it in all_) + end + data)


def peer_of_unix(path):
    link = socket.socket(socket.AF_UNIX)
    link.settimeout(PATIENCE)
    link.connect(path)
    return link
