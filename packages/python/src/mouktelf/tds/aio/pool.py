"""A pool of connections for the tasks of one loop, over the proved table of a service. It has no thread."""

import asyncio
import contextlib
import functools
import time
from typing import Any, Generator, Optional

from ...client import MessageKind
from ...service import Lent, Rest
from .. import errors
from ..answer import Answer
from ..exchange import Draining, Leased
from ..spelling import named
from ..table import CLEANING, Line, Statistics, Table
from .connection import Connection
from .session import Session
from .transport import opened


class Pooled(Connection):
    """As `mouktelf.tds.Pooled`."""

    def __init__(self, pool: "Pool", session: Session, line: Line, lease: int) -> None:
        super().__init__(session, line.spelling, pool.timeout, pool.autocommit, pool.isolation_level)
        self._pool, self._line, self._lease = pool, line, lease

    async def close(self) -> None:
        """Gives it back. What is underway is cancelled; what is open of a transaction is rolled back."""
        if not self._is_closed:
            self._is_closed = True
            await self._pool._take_back(self._session, self._line, self._lease)

    async def park(self) -> int:
        """Gives it back and keeps it with its open transaction: the ticket, for `pool.resume`."""
        session = self.session
        async with session.turn:
            await session.settle(self.until())
            ticket = self._pool._table.keep(self._lease, self._line.number)
            self._is_closed = True
        return ticket

    async def __aenter__(self) -> "Pooled":
        return self

    async def __aexit__(self, kind: Optional[type], *rest: object) -> None:
        """Commits and gives it back; where the block failed, what is open is rolled back as it is given back."""
        try:
            if kind is None:
                await super().__aexit__(kind, *rest)
        finally:
            await self.close()


class _Lending:
    """A connection that is to be lent: awaited, or as a block."""

    def __init__(self, lend: Any) -> None:
        self._lend, self._lent = lend, None  # type: Any, Optional[Pooled]

    def __await__(self) -> Generator[Any, None, Pooled]:
        return self._lend().__await__()

    async def __aenter__(self) -> Pooled:
        self._lent = await self._lend()
        return self._lent

    async def __aexit__(self, *told: Any) -> None:
        await self._lent.__aexit__(*told)  # type: ignore[union-attr]


def _wake(waiter: "asyncio.Future[None]") -> None:
    if not waiter.done():
        waiter.set_result(None)


class Pool:
    """As `mouktelf.tds.Pool`: `async with pool.connection() as connection`, or `connection = await pool.connection()`."""

    def __init__(self, dsn: str = "localhost", *by_place: str, most: int = 8, wait: float = 30, cleans: bool = False,
                 timeout: Optional[float] = None, login_timeout: float = 15, cancel_timeout: float = 10, autocommit: bool = False,
                 isolation_level: int = 0, blocksize: int = 4096, **how: Any) -> None:
        """As of `mouktelf.tds.Pool`."""
        self.timeout, self.autocommit, self.isolation_level = timeout, autocommit, isolation_level
        self._wait, self._cleans, self._login_timeout, self._cancel_timeout = wait, cleans, login_timeout, cancel_timeout
        self._how = dict(named(dsn, by_place, how), blocksize=blocksize)
        self._table = Table(most, blocksize)

    def connection(self, wait: Optional[float] = None) -> _Lending:
        """Lends a connection, after at most so many seconds. TimeoutError: all are in use. OperationalError: none can be opened."""
        return _Lending(lambda: self._connection(self._wait if wait is None else wait))

    async def _connection(self, wait: float) -> Pooled:
        since = time.monotonic()
        while True:
            lent = await self._lease(since + wait)
            line = self._table.lines.get(lent.number)
            if not line:
                line = await self._open(lent)
            elif not line.transport.is_quiet():
                self._table.gone(lent.number, True)
                continue
            self._table.waited(since)
            return self._lent(lent, line)

    def _lent(self, lent: Lent, line: Line) -> Pooled:
        return Pooled(self, self._session(Leased(self._table.service, lent.lease, lent.number), line), line, lent.lease)

    def _session(self, link: Leased, line: Line) -> Session:
        return Session(link, line.outgoing, line.size, line.transport, self._cancel_timeout)

    async def _lease(self, until: float) -> Lent:
        loop, is_woken = asyncio.get_running_loop(), False
        while True:
            mine = loop.create_future()
            wakes = functools.partial(_wake, mine)
            lent = self._table.lease(wakes, is_woken)
            if lent:
                return lent
            timer = loop.call_later(max(until - time.monotonic(), 0), wakes)
            try:
                await mine
            except asyncio.CancelledError:
                if not self._table.give_up(wakes):
                    # It was woken just now, and goes: the next one looks.
                    self._table.wake()
                raise
            finally:
                timer.cancel()
            if self._table.give_up(wakes):
                raise errors.TimeoutError("all connections of the pool are in use")
            is_woken = True

    async def _open(self, lent: Lent) -> Line:
        try:
            found = await opened(timeout=self._login_timeout, **self._how)
        except BaseException:
            self._table.gone(lent.number, True)
            raise
        line = Line(lent.number, found.transport, self._table.outgoing(found.transport.write), found.size, found.spelling)
        self._table.logged_in(line)
        return line

    async def _take_back(self, session: Session, line: Line, lease: int) -> None:
        """A lease is over. What has to be read then is read to its end, also where the task that gives it back is cancelled."""
        underway = session.current
        with contextlib.suppress(errors.ConnectionLost):
            if underway:
                session.cancel(underway)
        await asyncio.shield(asyncio.ensure_future(self._taken_back(session, line, lease)))

    async def _taken_back(self, session: Session, line: Line, lease: int) -> None:
        async with session.turn:
            rest, left = self._table.give_back(session, lease, line, self._cleans)
            if rest == Rest.DRAINING:
                rest = await self._drained(session)
            if rest == Rest.FREE and not session.is_clear:
                rest = Rest.CLOSED
        await self._rests(line, rest, left)

    async def _drained(self, session: Session) -> Rest:
        session.current = session.current or Answer()
        with contextlib.suppress(errors.Error):
            while session.current and not session.failure:
                await session.read(None)
        return Rest.CLOSED if session.failure else Rest.FREE

    async def _rests(self, line: Line, rest: Rest, left: Draining) -> None:
        """What becomes of a connection that nobody holds any more."""
        if left.cleaning and rest == Rest.FREE:
            rest = await self._cleaned(line, left.cleaning)
        if rest == Rest.FREE and not self._table.is_closed:
            self._table.wake()
        else:
            self._table.gone(line.number, False)

    async def _cleaned(self, line: Line, link: Leased) -> Rest:
        try:
            await self._session(link, line).run(MessageKind.BATCH, CLEANING, time.monotonic() + self._cancel_timeout)
            return Rest.FREE if self._table.is_clean(link) else Rest.CLOSED
        except errors.Error:
            return Rest.CLOSED

    async def resume(self, ticket: int) -> Pooled:
        """Lends the connection that was parked, with its transaction. The ticket is spent. InterfaceError: there is no such ticket.
        ConnectionLost: its connection has gone meanwhile."""
        lent = self._table.resume(ticket)
        line = self._table.lines[lent.number]
        if not line.transport.is_quiet():
            self._table.gone(lent.number, True)
            raise errors.ConnectionLost("the server has closed the connection while it was parked")
        return self._lent(lent, line)

    async def abandon(self, ticket: int) -> None:
        """Gives up what was parked: its transaction is rolled back. The ticket is spent."""
        number, rest, left = self._table.abandon(ticket)
        await self._rests(self._table.lines[number], rest, left)

    def statistics(self) -> Statistics:
        """How it stands, and what it has done."""
        return self._table.statistics()

    async def close(self) -> None:
        """Closes the connections that are free or parked; the others, where they are given back."""
        self._table.close()

    async def __aenter__(self) -> "Pool":
        return self

    async def __aexit__(self, *_: object) -> None:
        await self.close()
