"""A place before a server that answers some requests before their last packet, as a server does that refuses what it has read so far."""

import contextlib
import fcntl
import socket
import struct
import termios
import time

from answering_twice import Twice, messages

# A packet's status bits that ask for a reset, and what tells it done; a DONE that says that no more come (2.2.3.1.2, 2.2.7.9, 2.2.7.6).
RESETS, RESET_DONE, DONE = 0x18, bytes([0xE3, 3, 0, 18, 0, 0]), bytes([0xFD]) + bytes(12)
# What a socket keeps of what isn't read: a request of many packets doesn't go out before it is.
KEPT = 4096
PATIENCE = 60


def packets(source):
    """The packets that a socket brings."""
    begun = bytearray()
    while part := source.recv(KEPT):
        begun += part
        while len(begun) >= 8 and len(begun) >= (size := max(8, int.from_bytes(begun[2:4], "big"))):
            yield bytes(begun[:size])
            del begun[:size]


def answer_to(status):
    """The answer to a request whose first packet has this status."""
    data = (RESET_DONE if status & RESETS else b"") + DONE
    return bytes([4, 1, 0, 8 + len(data), 0, 0, 1, 0]) + data


def wait_until_taken(link):
    """Waits until the other side has all that was sent."""
    until = time.monotonic() + PATIENCE
    while struct.unpack("i", fcntl.ioctl(link, termios.TIOCOUTQ, bytes(4)))[0] and time.monotonic() < until:
        time.sleep(0.001)


class Early(Twice):
    """It listens at `port`, and the server stands behind it. A request of several packets with `text` in its first one is answered by a
    DONE behind that one, and goes no further."""

    def __init__(self, server, text="say early"):
        super().__init__(server, text)
        self.place.setsockopt(socket.SOL_SOCKET, socket.SO_RCVBUF, KEPT)

    def ask(self, client, server, asked):
        is_first, is_passed = True, True
        with contextlib.suppress(OSError):
            for packet in packets(client):
                if is_first and not packet[1] & 1 and self.marks in packet:
                    is_passed = False
                    client.sendall(answer_to(packet[1]))
                    wait_until_taken(client)
                if is_passed:
                    server.sendall(packet)
                is_first = bool(packet[1] & 1)
                is_passed = is_passed or is_first
        with contextlib.suppress(OSError):
            server.shutdown(socket.SHUT_WR)

    def answer(self, server, client, asked):
        with contextlib.suppress(OSError):
            for message in messages(server):
                client.sendall(message)
        with contextlib.suppress(OSError):
            client.shutdown(socket.SHUT_WR)
