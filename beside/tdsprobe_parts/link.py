"""A connection whose bytes are kept: TCP, and where the server wants it TLS.

In TDS 7 the handshake's bytes go inside PRELOGIN packets (MS-TDS 2.2.6.5, 3.2.5.1); after it TLS is on the socket
itself, for the login alone or for all that follows. What is kept are the packets as TLS carries them: the handshake
in its packets, and the rest before it is encrypted or after it is decrypted.
"""

import select
import socket
import ssl
import struct
import time

from . import wire

PIECE = 65536
# The room for what came and isn't read: small, so that a server that sends much soon waits for its reader.
ROOM = 16384


class Closed(Exception):
    """The server ended the connection."""


class Silent(Exception):
    """Nothing came in the time that something is waited for."""


def connected(host, port, patience):
    """A socket to the first address of the host that takes one, with little room."""
    refused = OSError(f"{host} has no address")
    for family, kind, protocol, _, address in socket.getaddrinfo(host, port, type=socket.SOCK_STREAM):
        link = socket.socket(family, kind, protocol)
        try:
            # before it connects, since the window is agreed on there
            link.setsockopt(socket.SOL_SOCKET, socket.SO_RCVBUF, ROOM)
            link.settimeout(patience)
            link.connect(address)
            return link
        except OSError as error:
            link.close()
            refused = error
    raise refused


class Link:
    def __init__(self, host, port, patience, events):
        self.patience, self.events, self.begun = patience, events, time.monotonic()
        self.tls = self.incoming = self.outgoing = None
        self.held = b""
        self.socket = connected(host, port, patience)
        self.socket.setsockopt(socket.IPPROTO_TCP, socket.TCP_NODELAY, 1)

    def keep(self, way, line, data=None):
        event = {"ms": round(1000 * (time.monotonic() - self.begun), 3), "way": way, "line": line}
        if data is not None:
            event["hex"] = data.hex()
        self.events.append(event)
        return event

    def send(self, data, line, shown=None):
        """Sends bytes in one write. `shown` stands in the recording in their place."""
        self.keep("to server", line, data if shown is None else shown)
        try:
            if self.tls:
                self.tls.write(data)
                data = self.outgoing.read()
            self.socket.sendall(data)
        except OSError as error:
            self.is_closed(error)

    def is_closed(self, why):
        if self.held:
            self.keep("to client", "part of a packet", self.held)
            self.held = b""
        self.keep("closed by server", str(why))
        raise Closed(str(why))

    def piece(self, until):
        """What comes on the socket next."""
        if not select.select([self.socket], [], [], max(0, until - time.monotonic()))[0]:
            raise Silent
        try:
            data = self.socket.recv(PIECE)
        except OSError as error:
            self.is_closed(error)
        if not data:
            self.is_closed("end of the stream")
        return data

    def clear(self, until):
        """What comes next, decrypted."""
        while self.tls:
            try:
                data = self.tls.read(PIECE)
            except ssl.SSLWantReadError:
                self.incoming.write(self.piece(until))
                continue
            except ssl.SSLError as error:
                self.is_closed(error)
            return data or self.is_closed("end of TLS")
        return self.piece(until)

    def packet(self, seconds=None):
        """The next packet: its type, its status and its data, and the event that has it."""
        until = time.monotonic() + (self.patience if seconds is None else seconds)
        while len(self.held) < 4 or len(self.held) < struct.unpack_from(">H", self.held, 2)[0]:
            self.held += self.clear(until)
        size = struct.unpack_from(">H", self.held, 2)[0]
        if size < wire.HEADER:
            self.is_closed(f"a packet of length {size}")
        whole, self.held = self.held[:size], self.held[size:]
        event = self.keep("to client", wire.NAMES.get(whole[0], f"type {whole[0]:02x}"), whole)
        return whole[0], whole[1], whole[wire.HEADER:], event

    def start_tls(self, context, host):
        """The handshake, inside of PRELOGIN packets."""
        self.incoming, self.outgoing = ssl.MemoryBIO(), ssl.MemoryBIO()
        tls = context.wrap_bio(self.incoming, self.outgoing, server_hostname=host)
        is_done = False
        while not is_done:
            try:
                tls.do_handshake()
                is_done = True
            except ssl.SSLWantReadError:
                pass
            flight = self.outgoing.read()
            if flight:
                self.send(b"".join(wire.packets(wire.PRELOGIN, flight)), "handshake")
            if not is_done:
                self.hear_flight()
        self.tls = tls

    def hear_flight(self):
        kind, _, data, event = self.packet()
        event["line"] = "handshake"
        if kind not in (wire.PRELOGIN, wire.REPLY):
            raise ssl.SSLError(f"a packet of type {kind:02x} in the handshake")
        self.incoming.write(data)

    def stop_tls(self):
        """What follows goes in clear: TLS was for the login alone."""
        self.tls = None

    def close(self):
        if self.held:
            self.keep("to client", "part of a packet", self.held)
        self.socket.close()
