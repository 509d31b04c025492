"""A small server for the tests of mouktelf.tds, from MS-TDS alone: it calls nothing of this package. It lets everybody in, and answers
some texts of tdsserve's batch language, a packet a statement: `rows A N`, `set K V`, `get K`, `say T`, `fail N`, `begin`, `commit`,
`rollback`; `wait` waits for a cancel, `crossed` for one that the rest then passes, `deaf` hears none for two seconds; `stray` is answered
twice, and `drop` closes."""

import contextlib
import socket
import struct
import threading
import time

BATCH, CALL, ATTENTION, BULK, TRANSACTION, LOGIN, PRELOGIN = 1, 3, 6, 7, 14, 16, 18
MORE, ERROR, COUNT, CANCELLED = 1, 2, 0x10, 0x20
PATIENCE = 30


def packet(data, status=1):
    return struct.pack(">BBHHBB", 4, status, 8 + len(data), 51, 1, 0) + data


def done(status=0, count=0, kind=0xFD):
    return struct.pack("<BHHQ", kind, status, 0xC1, count)


def change(kind, new=b"", old=b"", unit=1):
    """An ENVCHANGE (2.2.7.9), whose values are counted in bytes, or in units of a text."""
    body = bytes([kind, len(new) // unit]) + new + bytes([len(old) // unit]) + old
    return b"\xE3" + struct.pack("<H", len(body)) + body


def message(number, text, kind=0xAA):
    """An ERROR or INFO (2.2.7.10, 2.2.7.13)."""
    body = struct.pack("<iBBH", number, 1, 16 if kind == 0xAA else 0, len(text)) + text.encode("utf-16-le") + b"\0\0\7\0\0\0"
    return bytes([kind]) + struct.pack("<H", len(body)) + body


def rows(first, count):
    column = b"\x81\1\0" + bytes(6) + b"\x26\4\1n\0"
    return column + b"".join(b"\xD1\4" + struct.pack("<i", first + it) for it in range(count)) + done(MORE | COUNT, count)


PRELOGIN_ANSWER = bytes([0, 0, 11, 0, 6, 1, 0, 17, 0, 1, 0xFF]) + bytes([11, 0, 0, 0, 0, 0, 2])


def login_answer():
    collation = change(7, bytes.fromhex("0904D00034"))
    size = change(4, "4096".encode("utf-16-le"), "4096".encode("utf-16-le"), 2)
    body = b"\1\x74\0\0\4" + b"\2" + "db".encode("utf-16-le") + b"\x0B\0\0\0"
    return change(1, "main".encode("utf-16-le"), b"", 2) + collation + b"\xAD" + struct.pack("<H", len(body)) + body + size + done()


class Peer:
    """A connection's session."""

    def __init__(self, server, link):
        self.server, self.link, self.came = server, link, b""
        self.values, self.descriptor, self.next = {}, 0, 1
        self.is_cancelled = False

    def serve(self):
        self.message()
        self.link.sendall(packet(PRELOGIN_ANSWER))
        self.message()
        self.link.sendall(packet(login_answer()))
        while True:
            self.request(*self.message())

    def packet(self, seconds=None):
        """The next packet that came, or None where none does."""
        self.link.settimeout(seconds)
        try:
            while len(self.came) < 8 or len(self.came) < int.from_bytes(self.came[2:4], "big"):
                piece = self.link.recv(65536)
                if not piece:
                    raise EOFError
                self.came += piece
        except (socket.timeout, BlockingIOError):
            return None
        finally:
            self.link.settimeout(PATIENCE)
        length = int.from_bytes(self.came[2:4], "big")
        found, self.came = self.came[:length], self.came[length:]
        return found

    def message(self):
        """The next message: its kind, the status of its first packet, its data."""
        found = []
        while not found or not found[-1][1] & 1:
            found.append(self.packet())
        return found[0][0], found[0][1], b"".join(it[8:] for it in found)

    def request(self, kind, status, data):
        if kind == ATTENTION:
            self.server.cancels += 1
            return self.link.sendall(packet(done(CANCELLED)))
        if kind == BULK:
            self.server.loaded.append(data)
            return self.link.sendall(packet(done(COUNT, 2)))
        answer = []
        if status & 0x18:
            self.values.clear()
            self.descriptor = 0 if status & 8 else self.descriptor
            answer.append(change(18))
        told = int.from_bytes(data[10:18], "little")
        self.server.heard.append((kind, status, told))
        if told != self.descriptor:
            return self.send([*answer, message(50010, "descriptor") + done(ERROR)])
        texts = self.texts(kind, data[22:])
        return self.send(answer, texts)

    def texts(self, kind, body):
        if kind == TRANSACTION:
            return [*self.server.before, {5: "begin", 7: "commit", 8: "rollback"}[body[0]]]
        if kind == CALL:
            return ["call"]
        text = body.decode("utf-16-le")
        given = self.server.answers.get(text)
        return [it.strip() for it in (given if isinstance(given, str) else text).split(";")]

    def send(self, answer, texts=()):
        """Sends packets while no attention comes, and then its acknowledgement."""
        status, is_crossed = 0, False
        for part in answer:
            self.link.sendall(packet(part, 0))
        for text in texts:
            if text in ("wait", "crossed"):
                is_crossed = text == "crossed"
                self.is_cancelled = self.packet(PATIENCE) is not None
            if not is_crossed and (self.is_cancelled or self.packet(0) is not None):
                self.is_cancelled = True
                break
            given = self.statement(text)
            self.link.sendall(packet(given, 0))
            if given[:1] == b"\xAA":
                status = ERROR
                break
        if not self.is_cancelled or is_crossed:
            self.link.sendall(packet(done(status) if answer or texts else b""))
        if "stray" in texts:
            self.link.sendall(packet(rows(99, 1)[:-13] + done()))
        if self.is_cancelled:
            self.is_cancelled, self.server.cancels = False, self.server.cancels + 1
            self.link.sendall(packet(done(CANCELLED)))

    def statement(self, text):
        """The tokens that a statement gives."""
        word, *words = text.split(" ")
        if word == "drop":
            raise EOFError
        if word == "deaf":
            time.sleep(2)
        if word == "rows":
            return rows(int(words[0]), int(words[1]))
        if word == "set" and len(words) == 2:
            self.values[words[0]] = int(words[1])
        elif word == "get":
            return b"\x79" + struct.pack("<i", self.values.get(words[0], 0)) + done(MORE)
        elif word == "say":
            return message(50000, " ".join(words), 0xAB) + done(MORE)
        elif word == "fail":
            return message(int(words[0]), "fail")
        elif word in ("begin", "commit", "rollback"):
            return self.transaction(word)
        elif word == "call":
            return self.called()
        elif text in self.server.answers:
            return self.server.answers[text]
        return done(MORE)

    def transaction(self, word):
        if (word == "begin") == bool(self.descriptor):
            return message(50003, "no transaction" if word != "begin" else "a transaction is open")
        old, self.descriptor = self.descriptor, self.next if word == "begin" else 0
        self.next += word == "begin"
        number = (old or self.descriptor).to_bytes(8, "little")
        kind = {"begin": 8, "commit": 9, "rollback": 10}[word]
        return (change(8, number) if kind == 8 else change(kind, b"", number)) + done(MORE)

    def called(self):
        """A procedure with an output: a row, its status, the output's value, and its end."""
        value = b"\xAC\1\0\0\1" + bytes(6) + b"\x26\4\4" + struct.pack("<i", 9)
        return rows(1, 1)[:-13] + done(MORE | COUNT, 1, 0xFF) + b"\x79\3\0\0\0" + value + done(MORE, 0, 0xFE)


class Server:
    """Serves on a free port of this machine, a thread a connection. Of `answers` one for a text is the tokens that a statement gives, or
    the batch that is run in its place. `heard` has of each request its kind, status and descriptor;
    `before` is what stands before each transaction request, and `cancels` how many were acknowledged."""

    def __init__(self, answers=()):
        self.answers, self.heard, self.peers, self.before, self.loaded, self.cancels = dict(answers), [], [], [], [], 0
        self.socket = socket.create_server(("127.0.0.1", 0))
        self.port = self.socket.getsockname()[1]
        threading.Thread(target=self.accept, daemon=True).start()

    def accept(self):
        with contextlib.suppress(OSError):
            while True:
                link, _ = self.socket.accept()
                link.setsockopt(socket.IPPROTO_TCP, socket.TCP_NODELAY, 1)
                self.peers.append(link)
                threading.Thread(target=self.serve, args=(link,), daemon=True).start()

    def serve(self, link):
        with contextlib.suppress(EOFError, OSError), link:
            Peer(self, link).serve()
        with contextlib.suppress(OSError):
            link.close()

    def drop_all(self):
        """Closes what is connected now."""
        for link in self.peers:
            with contextlib.suppress(OSError):
                link.shutdown(socket.SHUT_RDWR)
        self.peers.clear()

    def __enter__(self):
        return self

    def __exit__(self, *_):
        with contextlib.suppress(OSError):
            self.socket.shutdown(socket.SHUT_RDWR)
        self.socket.close()
        self.drop_all()
