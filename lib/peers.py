"""Peers of a tdsserve: a server on a free port, what a client sends, and a client that reads its answers.

It is written from MS-TDS alone, and calls nothing of this repository. Numbers of packets have their high
byte first, those of tokens and of headers behind them their low byte first.
"""

import contextlib
import os
import select
import signal
import socket
import struct
import subprocess
import time

# How long, in seconds, anything is waited for that must come.
PATIENCE = 60
# How long a wrapper may compile the sources before its program listens.
COMPILES = 1800


class Server:
    """A tdsserve on a free port, with these words behind its address."""

    def __init__(self, program, *words):
        self.start(program, "127.0.0.1:0", *words)

    def start(self, program, *words):
        with open(program, "rb") as it:
            is_wrapper = it.read(2) == b"#!"
        self.child = subprocess.Popen([program, *words], stdin=subprocess.DEVNULL, stderr=None if is_wrapper else subprocess.DEVNULL,
                                      start_new_session=True)
        self.pid = self.child.pid
        try:
            self.wait(program, is_wrapper)
        except BaseException:
            self.end()
            raise

    def wait(self, program, is_wrapper):
        """Waits until it listens: the child itself, or what a wrapper started."""
        until = time.monotonic() + (COMPILES if is_wrapper else PATIENCE)
        while True:
            for self.pid in self.session() if is_wrapper else [self.child.pid]:
                if port := self.listens_on():
                    self.port = port
                    return
            if self.child.poll() is not None or time.monotonic() > until:
                raise OSError(f"{program} doesn't listen")
            time.sleep(0.1 if is_wrapper else 0.01)

    def session(self):
        """The processes that the child has started, and itself."""
        for name in filter(str.isdigit, os.listdir("/proc")):
            with contextlib.suppress(OSError):
                if os.getsid(int(name)) == self.child.pid:
                    yield int(name)

    def sockets(self):
        """The sockets that the server has, the listener among them, each by its number."""
        found = set()
        folder = f"/proc/{self.pid}/fd"
        try:
            for name in os.listdir(folder):
                link = os.readlink(f"{folder}/{name}")
                if link.startswith("socket:["):
                    found.add(link[8:-1])
        except OSError:
            # the server has ended, or one of them is closed
            pass
        return found

    def listens_on(self):
        """The port that one of its sockets listens on, None where none does."""
        own = self.sockets()
        with open("/proc/net/tcp", encoding="ascii") as it:
            for words in map(str.split, it):
                if words[3] == "0A" and words[9] in own:
                    return int(words[1].partition(":")[2], 16)
        return None

    def is_alive(self):
        return self.child.poll() is None

    def held_for(self, link):
        """How many bytes the system holds for this peer of the server, on both ends."""
        own, far = (f":{port:04X}" for port in (self.port, link.getsockname()[1]))
        count = 0
        with open("/proc/net/tcp", encoding="ascii") as it:
            for words in map(str.split, it):
                sent, came = words[4].split(":") if ":" in words[4] else ("0", "0")
                if words[1].endswith(own) and words[2].endswith(far):
                    count += int(sent, 16)
                elif words[1].endswith(far) and words[2].endswith(own):
                    count += int(came, 16)
        return count

    def __enter__(self):
        return self

    def __exit__(self, *_):
        self.end()

    def end(self):
        """Ends it, and whatever it has started."""
        with contextlib.suppress(OSError):
            os.killpg(self.child.pid, signal.SIGTERM)
        self.child.wait()

    def memory(self):
        """The most memory that it had, in KB."""
        with open(f"/proc/{self.pid}/status", encoding="ascii") as status:
            return next(int(line.split()[1]) for line in status if line.startswith("VmHWM"))


class Relay(Server):
    """A tdsrelay on a free port before a server, with so many connections at most; other servers behind it."""

    def __init__(self, program, server, most, *words, others=()):
        places = [f"127.0.0.1:{it.port}" for it in (server, *others)]
        self.start(program, "127.0.0.1:0", *places, "--most", str(most), *words)


def packet(kind, data, status=1):
    """A packet of this type and status (MS-TDS 2.2.3.1)."""
    return struct.pack(">BBHHBB", kind, status, len(data) + 8, 0, 1, 0) + data


# A header of the PROXY protocol, version 2, by hand: PROXY, TCP over IPv4, twelve bytes: from 192.0.2.7, port 50000, to
# 198.51.100.1, port 1433.
PROXY_HEADER = bytes.fromhex("0d0a0d0a000d0a515549540a" "2111000c" "c0000207" "c6336401" "c350" "0599")


def prelogin(encryption):
    """PRELOGIN with VERSION and ENCRYPTION (MS-TDS 2.2.6.5)."""
    return packet(0x12, bytes([0, 0, 11, 0, 6, 1, 0, 17, 0, 1, 0xFF]) + bytes(6) + bytes([encryption]))


def login(version=0x74000004, size=4096, more=0):
    """LOGIN7 with nothing but what has no length of its own (MS-TDS 2.2.6.4), and so many bytes more."""
    return packet(0x10, struct.pack("<III", 94 + more, version, size) + bytes(82 + more))


def with_features(*features):
    """A LOGIN7 that asks for these features (MS-TDS 2.2.6.4): a number and data each."""
    block = b"".join(bytes([number]) + struct.pack("<I", len(data)) + data for number, data in features) + b"\xff"
    data = bytearray(login(more=4 + len(block)))[8:]
    data[27] |= 0x10
    struct.pack_into("<HH", data, 56, 94, 4)
    struct.pack_into("<I", data, 94, 98)
    data[98:] = block
    struct.pack_into("<I", data, 0, len(data))
    return packet(0x10, bytes(data))


def batch(text, descriptor=0, status=1):
    """A batch behind its headers, inside of this transaction (MS-TDS 2.2.6.7, 2.2.5.3.2)."""
    headers = struct.pack("<IIHQI", 22, 18, 2, descriptor, 1)
    return packet(1, headers + text.encode("utf-16le"), status)


# What stands behind the headers of a transaction manager request (MS-TDS 2.2.6.9), by tdsask's word for it: its type,
# then a begin's isolation level and name, or another's name, flags, and what begins the next transaction.
REQUESTS = {"--begin": b"\5\0\0\0", "--commit": b"\7\0\0\0", "--rollback": b"\x08\0\0\0",
            "--commit-begin": b"\7\0\0\1\0\0", "--rollback-begin": b"\x08\0\0\1\0\0"}


def request(text, descriptor=0):
    """The transaction manager request of this word, or a batch with this text."""
    if text not in REQUESTS:
        return batch(text, descriptor)
    return packet(0x0E, struct.pack("<IIHQI", 22, 18, 2, descriptor, 1) + REQUESTS[text])


ATTENTION = packet(6, b"")


def connect(port):
    link = socket.create_connection(("127.0.0.1", port), PATIENCE)
    link.setsockopt(socket.IPPROTO_TCP, socket.TCP_NODELAY, 1)
    return link


def exactly(link, count):
    got = b""
    while len(got) < count:
        more = link.recv(count - len(got))
        if not more:
            raise OSError("closed")
        got += more
    return got


def message(link):
    """The data of the packets up to the end of a message."""
    data = b""
    while True:
        header = exactly(link, 8)
        data += exactly(link, struct.unpack(">H", header[2:4])[0] - 8)
        if header[1] & 1:
            return data


class Tokens:
    """Reads the tokens of an answer (MS-TDS 2.2.7), as bytes come."""

    def __init__(self):
        self.packets = self.data = b""
        self.columns = 0

    def feed(self, piece):
        """Takes a piece, and gives each token that is whole: its type, its line, and its value."""
        self.packets += piece
        while len(self.packets) >= 4:
            size = struct.unpack(">H", self.packets[2:4])[0]
            if len(self.packets) < size:
                break
            self.data += self.packets[8:size]
            self.packets = self.packets[size:]
        try:
            while self.data:
                kind, line, value, size = self.token(self.data)
                if len(self.data) < size:
                    break
                self.data = self.data[size:]
                yield kind, line, value
        except (struct.error, IndexError):
            # the token isn't whole yet
            pass

    def token(self, data):
        kind = data[0]
        if kind == 0xD1:  # ROW, of INT4 alone
            size = 1 + 4 * self.columns
            values = struct.unpack(f"<{self.columns}i", data[1:size])
            return kind, "row " + ", ".join(map(str, values)), values, size
        if kind == 0xFD:  # DONE
            status, _, count = struct.unpack("<HHQ", data[1:13])
            return kind, f"done {status:04x} {count}", status, 13
        if kind == 0x79:  # RETURNSTATUS
            value = struct.unpack("<i", data[1:5])[0]
            return kind, f"status {value}", value, 5
        if kind == 0x81:  # COLMETADATA
            return self.names(data)
        size = 3 + struct.unpack("<H", data[1:3])[0]
        body = data[3:size]
        if kind in (0xAA, 0xAB):  # ERROR, INFO
            number, _, units = struct.unpack("<iHH", body[:8])
            text = body[8:8 + 2 * units].decode("utf-16le")
            return kind, f"{'error' if kind == 0xAA else 'info'} {number} {text}", number, size
        return kind, None, body, size  # ENVCHANGE, LOGINACK

    def names(self, data):
        count = struct.unpack("<H", data[1:3])[0]
        place, names = 3, []
        for _ in range(count):
            units = data[place + 7]
            names.append(data[place + 8:place + 8 + 2 * units].decode("utf-16le"))
            place += 8 + 2 * units
        self.columns = count
        return 0x81, "columns " + ", ".join(names), names, place


class Client:
    """A client that is let in, with one request at a time."""

    def __init__(self, port):
        self.link = connect(port)
        self.link.sendall(login())
        # LOGINACK lets it in (MS-TDS 2.2.7.14)
        if not any(kind == 0xAD for kind, _, _ in Tokens().feed(packet(4, message(self.link)))):
            raise OSError("not let in")
        self.descriptor = 0
        self.is_over = False
        self.start()

    def start(self):
        self.told, self.became, self.bytes = [], None, 0
        self.is_cancelled, self.tokens = False, Tokens()

    def ask(self, text):
        self.start()
        self.link.sendall(request(text, self.descriptor))

    def cancel(self):
        """Its caller is told nothing from here on."""
        self.link.sendall(ATTENTION)
        self.is_cancelled, self.became = True, None

    def hear(self, patience):
        """Takes what comes, once something does or so many seconds have passed; whether something came."""
        if self.is_over or not select.select([self.link], [], [], patience)[0]:
            return False
        try:
            piece = self.link.recv(65536)
        except OSError:
            piece = b""
        self.is_over = not piece
        self.bytes += len(piece)
        for kind, line, value in self.tokens.feed(piece):
            self.take(kind, line, value)
        return True

    def take(self, kind, line, value):
        if kind == 0xE3 and value[0] in (8, 9, 10):  # a transaction begins or ends
            self.descriptor = int.from_bytes(value[2:2 + value[1]], "little")
        elif kind == 0xFD and value & 0x20:  # DONE_ATTN
            self.became = "acknowledged"
        elif not self.is_cancelled:
            if line:
                self.told.append(line)
            if kind == 0xFD and not value & 1:  # no DONE_MORE
                self.became = "finished"

    def finish(self):
        """Takes all that comes until its request is answered, or the connection is closed."""
        until = time.monotonic() + PATIENCE
        while not self.became and not self.is_over:
            if time.monotonic() > until:
                raise OSError("no answer")
            self.hear(1)

    def settle(self):
        """Takes all that comes without being asked for. Three clients that log in meanwhile, one behind
        another, give the server as many turns: what it has for this one it has sent then."""
        while True:
            for _ in range(3):
                Client(self.port()).link.close()
            if not self.hear(0):
                return
            while self.hear(0):
                pass

    def port(self):
        return self.link.getpeername()[1]

    def met(self):
        """The lines of what its request met."""
        became = self.became or ("cut" if self.is_over else "waits")
        told = "".join(f"  {line}\n" for line in self.told)
        return f"{became}\n{told}  {self.bytes} bytes, descriptor {self.descriptor}\n"
