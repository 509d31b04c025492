"""Servers in Python that stand before a tdsserve: a login of theirs, then its bytes both ways.

What they say at a login is written from MS-TDS alone.
"""

import socket
import struct
import threading
import time

from peers import PATIENCE, connect, exactly, login, message, packet

PRELOGIN = bytes([0, 0, 11, 0, 6, 1, 0, 17, 0, 1, 0xFF]) + bytes(6) + bytes([2])
DONE = b"\xfd" + bytes(12)


def whole(link):
    """The type and the data of a message."""
    data = b""
    while True:
        header = exactly(link, 8)
        data += exactly(link, struct.unpack(">H", header[2:4])[0] - 8)
        if header[1] & 1:
            return header[0], data


def sspi(data):
    """An SSPI token (MS-TDS 2.2.7.22), behind which nothing stands."""
    return b"\xed" + struct.pack("<H", len(data)) + data


def federated(data):
    """A FEDAUTHINFO token (MS-TDS 2.2.7.12)."""
    return b"\xee" + struct.pack("<I", len(data)) + data


def routing(host, port):
    """ENVCHANGE 20 (MS-TDS 2.2.7.9): protocol TCP, a port, a name; no old value."""
    name = host.encode("utf-16le")
    new = b"\x00" + struct.pack("<HH", port, len(host)) + name
    body = b"\x14" + struct.pack("<H", len(new)) + new + b"\x00\x00"
    return b"\xe3" + struct.pack("<H", len(body)) + body


def ack():
    """LOGINACK of TDS 7.4 (MS-TDS 2.2.7.14)."""
    body = b"\x01\x74\x00\x00\x04\x00\x00\x00\x00\x00"
    return b"\xad" + struct.pack("<H", len(body)) + body


def until_some(look):
    """What this gives, once that isn't empty, or after a minute."""
    end = time.monotonic() + PATIENCE
    while not (found := look()) and time.monotonic() < end:
        time.sleep(0.02)
    return found


class Before:
    """A server on a free port. `says` is what it answers a LOGIN7: each is sent, and then a message is awaited;
    behind the last one it authenticates the login, or where `ends` is set, says that and closes."""

    def __init__(self, server, says=(), ends=None, spid=0):
        self.server, self.says, self.ends, self.spid = server, says, ends, spid
        self.listener = socket.create_server(("127.0.0.1", 0))
        self.port = self.listener.getsockname()[1]
        # What came: the data of each LOGIN7, and the type and the data of each leg.
        self.logins, self.legs = [], []
        self.links, self.come, self.is_deaf = [], 0, False
        # What has come on each link behind its login; and a text that is answered by these data.
        self.said = {}
        self.answers = None
        threading.Thread(target=self.run, daemon=True).start()

    def run(self):
        while True:
            try:
                link, _ = self.listener.accept()
            except OSError:
                return
            self.links.append(link)
            threading.Thread(target=self.guarded, args=(link,), daemon=True).start()

    def guarded(self, link):
        try:
            self.one(link)
        except OSError:
            link.close()

    def send(self, link, data):
        parts = [data[at:at + 4088] for at in range(0, len(data), 4088)]
        link.sendall(b"".join(
            struct.pack(">BBHHBB", 4, int(at + 1 == len(parts)), len(part) + 8, self.spid, 1, 0) + part
            for at, part in enumerate(parts)))

    def one(self, link):
        whole(link)
        # Who connects and says nothing only looks whether somebody is there.
        self.come += 1
        self.send(link, PRELOGIN)
        self.logins.append(whole(link)[1])
        for token in self.says:
            self.send(link, token)
            self.legs.append(whole(link))
        if self.ends is not None:
            self.send(link, self.ends)
            return
        far = connect(self.server.port)
        far.sendall(login())
        self.send(link, message(far))
        threading.Thread(target=self.pump, args=(far, link), daemon=True).start()
        self.pump(link, far)

    def pump(self, near, far):
        """What comes on one goes out on the other; where it is deaf, nothing does."""
        try:
            while data := near.recv(65536):
                self.said[near] = self.said.get(near, b"") + data
                if self.answers and self.answers[0].encode("utf-16le") in data:
                    self.send(near, self.answers[1])
                elif not self.is_deaf:
                    far.sendall(data)
        except OSError:
            pass
        for it in (near, far):
            try:
                it.shutdown(socket.SHUT_RDWR)
            except OSError:
                pass

    def link_of(self, text):
        """The link on which this text was asked: the relay may have sent it a while before it is read here."""
        found = until_some(lambda: [link for link, said in dict(self.said).items()
                                    if link in self.links and text.encode("utf-16le") in said])
        if not found:
            raise OSError(f"nobody asked {text}")
        return found[0]

    def stop(self):
        """It takes no more connections, and closes those that it has."""
        try:
            # `close` alone would leave a waiting `accept`, which takes one more.
            self.listener.shutdown(socket.SHUT_RDWR)
        except OSError:
            pass
        self.listener.close()
        self.drop()

    def drop(self):
        for link in self.links:
            try:
                link.shutdown(socket.SHUT_RDWR)
            except OSError:
                pass
        self.links = []

    def __enter__(self):
        return self

    def __exit__(self, *_):
        self.stop()
