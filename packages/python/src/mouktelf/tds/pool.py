"""A pool of connections for threads, over the proved table of a service."""

import contextlib
import threading
import time
from typing import Any, Optional

from ..client import MessageKind
from ..service import Lent, Rest
from . import errors
from .answer import Answer
from .connection import Connection, transport_of
from .exchange import Draining, Leased
from .session import Session
from .spelling import log_in, named
from .table import CLEANING, Line, Statistics, Table


class Pooled(Connection):
    """A connection of a pool, for as long as it is lent: `close` gives it back, and so does the end of its block."""

    def __init__(self, pool: "Pool", session: Session, line: Line, lease: int) -> None:
        super().__init__(session, line.spelling, pool.timeout, pool.autocommit, pool.isolation_level)
        self._pool, self._line, self._lease = pool, line, lease

    def close(self) -> None:
        """Gives it back. What is underway is cancelled; what is open of a transaction is rolled back."""
        if not self._is_closed:
            self._is_closed = True
            self._pool._take_back(self._session, self._line, self._lease)

    def park(self) -> int:
        """Gives it back and keeps it with its open transaction, for whoever has the ticket: `pool.resume(ticket)`. InterfaceError
        where no transaction is open."""
        session = self.session
        with session.turn:
            session.settle(self.until())
            ticket = self._pool._table.keep(self._lease, self._line.number)
            self._is_closed = True
        return ticket

    def __enter__(self) -> "Pooled":
        return self

    def __exit__(self, kind: Optional[type], *rest: object) -> None:
        """Commits and gives it back; where the block failed, what is open is rolled back as it is given back."""
        try:
            if kind is None and not self._autocommit:
                super().__exit__(kind, *rest)
        finally:
            self.close()


class Pool:
    """At most so many connections, which threads share:

        pool = Pool("db", most=10, user="sa", password="..", timeout=30)
        with pool.connection() as connection, connection.cursor() as cursor: ..

    Each lease finds a session as a new one is: its first request asks for a reset. A connection that breaks, or that the server
    closes, is replaced."""

    def __init__(self, dsn: str = "localhost", *by_place: str, most: int = 8, least: int = 0, wait: float = 30, cleans: bool = False,
                 timeout: Optional[float] = None, login_timeout: float = 15, cancel_timeout: float = 10, autocommit: bool = False,
                 isolation_level: int = 0, blocksize: int = 4096, **how: Any) -> None:
        """`least` are opened at once; who finds none free waits up to `wait` seconds, the first one first. With `cleans` each is
        reset as it is given back; else one whose transaction is open then, and the others by their next request. The rest as
        of `connect`."""
        self.timeout, self.autocommit, self.isolation_level = timeout, autocommit, isolation_level
        self._wait, self._cleans, self._login_timeout, self._cancel_timeout = wait, cleans, login_timeout, cancel_timeout
        self._how = dict(named(dsn, by_place, how), blocksize=blocksize)
        self._table = Table(most, blocksize)
        for it in [self.connection() for _ in range(least)]:
            it.close()

    def connection(self, wait: Optional[float] = None) -> Pooled:
        """Lends a connection, after at most so many seconds. TimeoutError: all are in use. OperationalError: none can be opened."""
        since = time.monotonic()
        while True:
            lent = self._lease(since + (self._wait if wait is None else wait))
            line = self._table.lines.get(lent.number)
            if not line:
                line = self._open(lent)
            elif not line.transport.is_quiet():
                # The server has closed it meanwhile.
                self._table.gone(lent.number, True)
                continue
            self._table.waited(since)
            return self._lent(lent, line)

    def _lent(self, lent: Lent, line: Line) -> Pooled:
        lease, number, _ = lent
        return Pooled(self, self._session(Leased(self._table.service, lease, number), line), line, lease)

    def _session(self, link: Leased, line: Line) -> Session:
        return Session(link, line.outgoing, line.size, line.transport, self._cancel_timeout)

    def _lease(self, until: float) -> Lent:
        table = self._table
        # Where somebody waits already, who comes now waits too.
        at_once = None if table.waiting else table.lease()
        if at_once:
            return at_once
        # Who waits waits for its own lock, which whoever wakes it lets go: that takes less than an Event.
        mine, is_woken = threading.Lock(), False
        mine.acquire()
        while True:
            lent = table.lease(mine.release, is_woken)
            if lent:
                return lent
            if not mine.acquire(timeout=min(max(until - time.monotonic(), 0), threading.TIMEOUT_MAX)):
                if table.give_up(mine.release):
                    raise errors.TimeoutError("all connections of the pool are in use")
                # It was woken just now.
                mine.acquire()
            is_woken = True

    def _open(self, lent: Lent) -> Line:
        try:
            found = log_in(timeout=self._login_timeout, **self._how)
        except BaseException:
            self._table.gone(lent.number, True)
            raise
        transport = transport_of(found)
        line = Line(lent.number, transport, self._table.outgoing(transport.write), found.size, found.spelling)
        self._table.logged_in(line)
        return line

    def _take_back(self, session: Session, line: Line, lease: int) -> None:
        """A lease is over. Whoever reads for it in another thread is told that it is cancelled, and reads no more."""
        underway = session.current
        if underway:
            with contextlib.suppress(errors.ConnectionLost):
                session.cancel(underway)
        with session.turn:
            rest, left = self._table.give_back(session, lease, line, self._cleans)
            if rest is Rest.DRAINING:
                rest = self._drained(session)
            if rest is Rest.FREE and not session.is_clear:
                rest = Rest.CLOSED
        self._rests(line, rest, left)

    def _drained(self, session: Session) -> Rest:
        session.current = session.current or Answer()
        with contextlib.suppress(errors.Error):
            while session.current and not session.failure:
                session.read(None)
        return Rest.CLOSED if session.failure else Rest.FREE

    def _rests(self, line: Line, rest: Rest, left: Draining) -> None:
        """What becomes of a connection that nobody holds any more."""
        if left.cleaning and rest is Rest.FREE:
            rest = self._cleaned(line, left.cleaning)
        if rest is Rest.FREE and not self._table.is_closed:
            self._table.wake()
        else:
            self._table.gone(line.number, False)

    def _cleaned(self, line: Line, link: Leased) -> Rest:
        try:
            self._session(link, line).run(MessageKind.BATCH, CLEANING, time.monotonic() + self._cancel_timeout)
            return Rest.FREE if self._table.is_clean(link) else Rest.CLOSED
        except errors.Error:
            return Rest.CLOSED

    def resume(self, ticket: int) -> Pooled:
        """Lends the connection that was parked, with its transaction; its settings are a new session's. The ticket is spent.
        InterfaceError: there is no such ticket. ConnectionLost: its connection has gone meanwhile, and the transaction with it."""
        lent = self._table.resume(ticket)
        line = self._table.lines[lent.number]
        if not line.transport.is_quiet():
            self._table.gone(lent.number, True)
            raise errors.ConnectionLost("the server has closed the connection while it was parked")
        return self._lent(lent, line)

    def abandon(self, ticket: int) -> None:
        """Gives up what was parked: its transaction is rolled back. The ticket is spent."""
        number, rest, left = self._table.abandon(ticket)
        self._rests(self._table.lines[number], rest, left)

    def statistics(self) -> Statistics:
        """How it stands, and what it has done."""
        return self._table.statistics()

    def close(self) -> None:
        """Closes the connections that are free or parked; the others, where they are given back."""
        self._table.close()

    def __enter__(self) -> "Pool":
        return self

    def __exit__(self, *_: object) -> None:
        self.close()
