"""A socket that a login has left, for one thread that reads beside one that writes; with TLS or without."""

import contextlib
import ctypes
import errno
import select
import socket
import struct
import threading
import time
from typing import Any, Optional

_AT_ONCE = 1 << 16
# So many seconds a peer may take nothing of what is written, before the connection is given up.
STALLS = 60.0
# A wait looks so often, in seconds, whether somebody else has cancelled meanwhile.
LOOK = 1.0


# What waits for nothing: no other thread is let run meanwhile, as Python's own calls of the system let one. Where many threads share
# connections, to be let run again takes longer than such a call.
_SYSTEM = ctypes.PyDLL(None, use_errno=True)
_recv, _send = _SYSTEM.recv, _SYSTEM.send
for _it in (_recv, _send):
    _it.restype, _it.argtypes = ctypes.c_ssize_t, (ctypes.c_int, ctypes.c_char_p, ctypes.c_size_t, ctypes.c_int)
_NOW, _LOOKS = socket.MSG_DONTWAIT | socket.MSG_NOSIGNAL, socket.MSG_DONTWAIT | socket.MSG_PEEK
_BYTE, _NOTHING = ctypes.create_string_buffer(1), (errno.EAGAIN, errno.EWOULDBLOCK, errno.EINTR)
# So much is written by such a call.
_SHORT = 8192


class Transport:
    """The bytes of one connection."""

    def __init__(self, sock: socket.socket) -> None:
        sock.setblocking(True)
        # A struct timeval. So a read is one call of the system, without a poll before it.
        sock.setsockopt(socket.SOL_SOCKET, socket.SO_RCVTIMEO, struct.pack("ll", int(LOOK), 0))
        self._socket, self._closing = sock, threading.Lock()
        self._readable, self._writable = select.poll(), select.poll()
        self._readable.register(sock, select.POLLIN)
        self._writable.register(sock, select.POLLOUT)

    def write(self, data: bytes) -> None:
        """Writes all of it. OSError where the peer takes nothing for `STALLS` seconds, or is gone."""
        sent = 0
        if len(data) <= _SHORT:
            # Nobody closes it meanwhile: another socket might have its number then.
            with self._closing:
                sent = _send(self._socket.fileno(), data, len(data), _NOW)
            if sent == len(data):
                return
        left = memoryview(data)[max(sent, 0):]
        while left:
            try:
                left = left[self._socket.send(left, _NOW):]
            except BlockingIOError:
                if not self._writable.poll(STALLS * 1000):
                    raise OSError(f"the server has taken nothing for {STALLS:.0f} s") from None

    def read(self, seconds: float) -> Optional[bytes]:
        """What has come, after at most so many seconds, and `LOOK`: empty where the peer has closed, None where nothing came."""
        if seconds < LOOK and not self._readable.poll(max(seconds, 0) * 1000):
            return None
        try:
            return self._socket.recv(_AT_ONCE)
        except BlockingIOError:
            return None
        except OSError:
            return b""

    def is_quiet(self) -> bool:
        """Whether nothing has come: what comes where nothing is awaited is an end, or a breach."""
        return _recv(self._socket.fileno(), _BYTE, 1, _LOOKS) < 0 and ctypes.get_errno() in _NOTHING

    def close(self) -> None:
        """Ends it, also for a thread that waits for it."""
        with contextlib.suppress(OSError):
            self._socket.shutdown(socket.SHUT_RDWR)
        with self._closing:
            self._socket.close()


class Encrypted(Transport):
    """The same over python-tds's TLS, of pyOpenSSL, which is for one thread at a time."""

    def __init__(self, sock: socket.socket, tls: Any) -> None:
        super().__init__(sock)
        self._tls, self._lock = tls, threading.Lock()
        # What is encrypted goes out in that order.
        self._sending = threading.Lock()

    def write(self, data: bytes) -> None:
        with self._sending:
            with self._lock:
                self._tls.sendall(data)
                out = everything(self._tls)
            super().write(out)

    def read(self, seconds: float) -> Optional[bytes]:
        until = time.monotonic() + seconds
        while True:
            with self._lock:
                found = decrypted(self._tls)
            if found:
                return found
            piece = super().read(until - time.monotonic())
            if not piece:
                return piece
            with self._lock:
                self._tls.bio_write(piece)


def everything(tls: Any) -> bytes:
    """What TLS wants to be sent. Its errors are known by python-tds's own module for it, which is here where TLS is."""
    from pytds.tls import OpenSSL

    found = []
    with contextlib.suppress(OpenSSL.SSL.WantReadError):
        while True:
            found.append(tls.bio_read(_AT_ONCE))
    return b"".join(found)


def decrypted(tls: Any) -> bytes:
    """What TLS has of the peer's."""
    from pytds.tls import OpenSSL

    try:
        return tls.recv(_AT_ONCE)
    except OpenSSL.SSL.WantReadError:
        return b""
