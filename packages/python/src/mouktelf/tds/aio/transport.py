"""The bytes of one connection on a loop, and how it is logged in."""

import asyncio
import functools
import time
from typing import Any, List, NamedTuple, Optional

from .. import errors
from ..spelling import LoggedIn, Spelling, log_in, logged_in_by
from ..transport import decrypted, everything

# So many bytes are kept that nobody has read yet.
_MOST = 1 << 18


class Transport(asyncio.Protocol):
    """A connection's bytes: what comes is kept until it is read, by one task at a time."""

    def __init__(self, tls: Any = None) -> None:
        self._tls, self._came, self._size = tls, [], 0  # type: Any, List[bytes], int
        self._has_ended = self._is_paused = False
        self._waiter: Optional["asyncio.Future[None]"] = None
        self._wire: Any = None

    def connection_made(self, transport: Any) -> None:
        self._wire = transport

    def data_received(self, data: bytes) -> None:
        self._came.append(data)
        self._size += len(data)
        if self._size > _MOST and not self._is_paused:
            self._is_paused = True
            self._wire.pause_reading()
        self._wake()

    def connection_lost(self, _: Optional[Exception]) -> None:
        self._has_ended = True
        self._wake()

    def _wake(self) -> None:
        if self._waiter and not self._waiter.done():
            self._waiter.set_result(None)

    def write(self, data: bytes) -> None:
        """Writes all of it; what the socket doesn't take yet is kept."""
        if self._tls:
            self._tls.sendall(data)
            data = everything(self._tls)
        self._wire.write(data)

    async def read(self, seconds: Optional[float]) -> Optional[bytes]:
        """What has come, after at most so many seconds (None: without a limit): empty where the peer has closed, None where nothing
        came."""
        until = None if seconds is None else time.monotonic() + seconds
        while True:
            found = self._taken()
            if found or self._has_ended:
                return found
            left = None if until is None else until - time.monotonic()
            if left is not None and left <= 0:
                return None
            await self._come(left)

    def _taken(self) -> bytes:
        data, self._came, self._size = b"".join(self._came), [], 0
        if self._is_paused:
            self._is_paused = False
            self._wire.resume_reading()
        if not self._tls:
            return data
        if data:
            self._tls.bio_write(data)
        return decrypted(self._tls)

    async def _come(self, seconds: Optional[float]) -> None:
        """Waits until something has come."""
        loop = asyncio.get_running_loop()
        self._waiter = loop.create_future()
        timer = loop.call_later(seconds, self._wake) if seconds is not None else None
        try:
            await self._waiter
        finally:
            self._waiter = None
            if timer:
                timer.cancel()

    def is_quiet(self) -> bool:
        """Whether nothing has come: what comes where nothing is awaited is an end, or a breach."""
        return not self._came and not self._has_ended

    def close(self) -> None:
        """Ends it, also for a task that waits for it."""
        self._has_ended = True
        if self._wire:
            self._wire.abort()
        self._wake()


class Opened(NamedTuple):
    """A connection that is logged in."""

    transport: Transport
    size: int
    spelling: Spelling


async def opened(dsn: str, timeout: float, **how: Any) -> Opened:
    """Connects and logs in, within so many seconds. With TLS, another authentication than a password, or a named instance the login
    takes a thread of the loop's: python-tds waits for the socket then. Raises the errors of this package."""
    task = asyncio.ensure_future(_opened(dsn, timeout, how))
    try:
        # wait_for may lose a cancel.
        done, _ = await asyncio.wait({task}, timeout=timeout)
    except asyncio.CancelledError:
        _given_up(task)
        raise
    if not done:
        _given_up(task)
        raise errors.OperationalError(f"no connection to {dsn} within {timeout:g} s")
    try:
        return task.result()
    except OSError as why:
        raise errors.OperationalError(f"no connection to {dsn}: {why}") from why


def _given_up(task: "asyncio.Future[Opened]") -> None:
    """Nobody waits for a login any more: what comes of it still is closed."""
    task.cancel()
    task.add_done_callback(lambda it: it.cancelled() or it.exception() or it.result().transport.close())


async def _opened(dsn: str, timeout: float, how: Any) -> Opened:
    loop = asyncio.get_running_loop()
    if "\\" in dsn or any(how.get(it) for it in ("cafile", "auth", "use_sso")):
        found = await loop.run_in_executor(None, functools.partial(log_in, dsn, timeout, **how))
        found.socket.setblocking(False)
        _, transport = await loop.create_connection(lambda: Transport(found.tls), sock=found.socket)
        return Opened(transport, found.size, found.spelling)
    _, transport = await loop.create_connection(Transport, dsn, how.get("port") or 1433)
    try:
        found = await _logged_in(transport, dsn, how)
    except BaseException:
        transport.close()
        raise
    return Opened(transport, found.size, found.spelling)


async def _logged_in(transport: Transport, dsn: str, how: Any) -> LoggedIn:
    came, sent = b"", 0
    while True:
        out, found = logged_in_by(came, dsn, **how)
        transport.write(out[sent:])
        if found:
            return found
        sent = len(out)
        piece = await transport.read(None)
        if not piece:
            raise errors.OperationalError("the server has closed the connection while it was logged in")
        came += piece
