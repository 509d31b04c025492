"""Measures what a relay costs a request and a byte: tdsrelay, and one in plain C that passes bytes (plain_relay.c). One
application asks through it, one request behind another; a server of this process answers. Neither is measured.
"""
import os
import re
import signal
import socket
import struct
import subprocess
import sys
import tempfile
import threading

import peers  # noqa: E402
from freetds import LOGGED_IN, PRELOGIN  # noqa: E402

# The end of a reset, for who asks for one; a status and a DONE (MS-TDS 2.2.7.9, 2.2.7.18, 2.2.7.6).
RESET_DONE = bytes.fromhex("e30300120000")
SHORT = bytes.fromhex("7905000000" "fd1000c1000100000000000000")
SIZE = 4096


def rows(count):
    """An answer of rows with one INT4."""
    return bytes.fromhex("8101000000000000003801") + "n".encode("utf-16-le") + b"".join(
        b"\xd1" + struct.pack("<i", it) for it in range(count)) + bytes.fromhex("fd1000c100") + struct.pack("<Q", count)


ANSWERS = {"s": SHORT, "r": rows(20_000)}


def packets(data):
    parts = [data[at:at + SIZE - 8] for at in range(0, len(data), SIZE - 8)]
    return b"".join(peers.packet(4, part, int(at + 1 == len(parts))) for at, part in enumerate(parts))


def serve(link):
    try:
        while True:
            data, asks_reset = b"", False
            while True:
                header = peers.exactly(link, 8)
                asks_reset |= bool(header[1] & 8)
                data += peers.exactly(link, struct.unpack(">H", header[2:4])[0] - 8)
                if header[1] & 1:
                    break
            if header[0] in (0x12, 0x10):
                link.sendall(packets(PRELOGIN if header[0] == 0x12 else LOGGED_IN))
                continue
            answer = ANSWERS.get(data[22:].decode("utf-16-le"), bytes.fromhex("fd000000000000000000000000"))
            link.sendall(packets((RESET_DONE if asks_reset else b"") + answer))
    except OSError:
        link.close()


def server():
    """The port of a server that answers whoever comes."""
    listener = socket.create_server(("127.0.0.1", 0))

    def accept():
        while True:
            link, _ = listener.accept()
            link.setsockopt(socket.IPPROTO_TCP, socket.TCP_NODELAY, 1)
            threading.Thread(target=serve, args=(link,), daemon=True).start()

    threading.Thread(target=accept, daemon=True).start()
    return listener.getsockname()[1]


class Relay(peers.Server):
    """A relay that this command starts."""

    def __init__(self, words):
        self.said = tempfile.TemporaryFile()
        self.child = subprocess.Popen(words, stdout=subprocess.DEVNULL, stderr=self.said)
        self.pid = self.child.pid
        while not (port := self.listens_on()):
            if self.child.poll() is not None:
                raise OSError(f"{words} ends at once")
        self.port = port

    def ended(self):
        """The seconds of a processor that it took, and what it said."""
        self.child.send_signal(signal.SIGTERM)
        _, _, usage = os.wait4(self.child.pid, 0)
        self.child.returncode = 0
        self.said.seek(0)
        return usage.ru_utime + usage.ru_stime, self.said.read().decode(errors="replace")


def asked(words, name, times):
    """What a relay took for so many requests of this name behind a login, and what it said at its end."""
    relay = Relay(words)
    link = peers.connect(relay.port)
    link.sendall(peers.login())
    peers.message(link)
    request = peers.batch(name)
    for _ in range(times):
        link.sendall(request)
        if peers.message(link)[-13] != 0xFD:
            raise OSError("no DONE")
    link.close()
    return relay.ended()


def measure(words, name, times, turns):
    """The instructions and the nanoseconds of a request of this name."""
    count = ["valgrind", "--tool=callgrind", "--callgrind-out-file=/dev/null", *words]
    few, many = (int(re.search(r"Collected : (\d+)", asked(count, name, it)[1])[1]) for it in (1, 1 + times))
    few_seconds, many_seconds = (min(asked(words, name, it)[0] for _ in range(turns)) for it in (1, 1 + 10 * times))
    return (many - few) / times, 1e9 * (many_seconds - few_seconds) / (10 * times)
