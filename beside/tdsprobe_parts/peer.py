"""A small server for the probe's own tests, in clear or with TLS. Its bytes are written by hand from MS-TDS."""

import socket
import ssl
import struct
import threading

DONE = bytes.fromhex("FD 0000 C100 0000000000000000")
MORE = bytes.fromhex("FD 0100 C100 0000000000000000")
DONEPROC = bytes.fromhex("79 00000000 FE 0000 E000 0000000000000000")
ACKNOWLEDGED = bytes.fromhex("FD 2000 0000 0000000000000000")
BEGUN = bytes.fromhex("E3 0B00 08 08 0100000000000000 00") + DONE
RESET_DONE = bytes.fromhex("E3 0300 12 00 00")
REFUSED = (bytes.fromhex("AA 1200 18480000 01 0E 0200 6E006F00 00 00 01000000")
           + bytes.fromhex("FD 0200 0000 0000000000000000"))


def loginack(program):
    """LOGINACK of TDS 7.4 with the program's name and version 16.0.4135 (2.2.7.14)."""
    body = b"\x01\x74\x00\x00\x04" + bytes([len(program)]) + program.encode("utf-16-le") + bytes([16, 0, 0x10, 0x27])
    return b"\xad" + struct.pack("<H", len(body)) + body


def packet(data, status=1, kind=4):
    return struct.pack(">BBHHBB", kind, status, len(data) + 8, 0, 1, 0) + data


class Gone(Exception):
    """The client closed, or the peer does."""


class Peer:
    """Answers at a port of its own until it is closed. `came` has what each connection sent, decrypted."""

    def __init__(self, encryption=2, context=None, program="Microsoft SQL Server", answers=None, lets_in=True):
        self.encryption, self.context, self.program, self.lets_in = encryption, context, program, lets_in
        self.answers, self.came = answers or {}, []
        self.listener = socket.create_server(("127.0.0.1", 0))
        self.port = self.listener.getsockname()[1]
        threading.Thread(target=self.serve, daemon=True).start()

    def serve(self):
        while True:
            try:
                link, _ = self.listener.accept()
            except OSError:
                return
            self.came.append([])
            threading.Thread(target=self.talk, args=(link, self.came[-1]), daemon=True).start()

    def talk(self, link, came):
        with link:
            try:
                Talk(self, link, came).run()
            except (Gone, OSError):
                # either end has closed
                pass

    def __enter__(self):
        return self

    def __exit__(self, *_):
        self.listener.close()


class Talk:
    """One connection."""

    def __init__(self, peer, link, came):
        self.peer, self.link, self.came, self.held, self.tls = peer, link, came, b"", None

    def more(self):
        data = self.link.recv(65536)
        if not data:
            raise Gone
        return data

    def packet(self):
        """The next packet: type, status, data."""
        while len(self.held) < 4 or len(self.held) < struct.unpack_from(">H", self.held, 2)[0]:
            if not self.tls:
                self.held += self.more()
                continue
            try:
                self.held += self.tls.read(65536)
            except ssl.SSLWantReadError:
                self.incoming.write(self.more())
        size = struct.unpack_from(">H", self.held, 2)[0]
        whole, self.held = self.held[:size], self.held[size:]
        self.came.append(whole)
        return whole[0], whole[1], whole[8:]

    def send(self, data):
        if self.tls:
            self.tls.write(data)
            data = self.outgoing.read()
        self.link.sendall(data)

    def handshake(self):
        """TLS inside of PRELOGIN packets (3.3.5.1)."""
        self.incoming, self.outgoing = ssl.MemoryBIO(), ssl.MemoryBIO()
        tls = self.peer.context.wrap_bio(self.incoming, self.outgoing, server_side=True)
        while True:
            try:
                tls.do_handshake()
                break
            except ssl.SSLWantReadError:
                self.flush()
                self.incoming.write(self.packet()[2])
        self.flush()
        self.tls = tls

    def flush(self):
        flight = self.outgoing.read()
        if flight:
            self.link.sendall(packet(flight, kind=0x12))

    def log_in(self):
        self.packet()
        said = self.peer.encryption
        # VERSION 16.0, ENCRYPTION
        self.send(packet(bytes.fromhex("00 000B 0006 01 0011 0001 FF 10000000 0000") + bytes([said])))
        if said != 2 and self.peer.context:
            self.handshake()
        self.packet()
        if said == 0:
            self.tls = None
        self.send(packet(loginack(self.peer.program) + DONE if self.peer.lets_in else REFUSED))
        if not self.peer.lets_in:
            raise Gone

    def run(self):
        self.log_in()
        request = b""
        while True:
            kind, status, data = self.packet()
            if kind == 0x7A:
                raise Gone
            if kind == 6:
                request = b""
                self.send(packet(ACKNOWLEDGED))
                continue
            request += data
            if status & 3 == 1:
                self.answer(kind, self.came[-1][1] & 0x18, request)
            if status & 1:
                request = b""

    def answer(self, kind, reset, request):
        """What a request is answered: what the test says of its text, else what its type says."""
        words = request[22:].decode("utf-16-le", "replace")
        for text, tokens in self.peer.answers.items():
            if kind == 1 and text in words:
                if tokens is None:
                    raise Gone
                break
        else:
            tokens = DONEPROC if kind == 3 else BEGUN if kind == 14 and request[22] == 5 else DONE
        if "waitfor" not in words:
            self.send(packet((RESET_DONE if reset else b"") + tokens))
        elif "nowait" in words:
            self.send(packet(MORE, status=0))
