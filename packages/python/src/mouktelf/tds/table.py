"""What a pool keeps: the proved table of connections, their sockets, and who waits. Nothing here waits; threads and asyncio have
the same (`pool`, `aio.pool`)."""

import collections
import contextlib
import threading
import time
from typing import Any, Callable, Deque, Dict, Iterator, NamedTuple, Optional, Tuple

from ..fault import Fault
from ..outgoing import Outgoing
from ..service import Lent, Rest, Service
from . import errors
from .exchange import Draining, Exchange, Leased
from .spelling import Spelling

# A batch that does nothing, and that leaves the isolation level, which a reset keeps, as a new session has it.
CLEANING = "set transaction isolation level read committed".encode("utf-16-le")
_ALL_IN_USE = 35


class Line(NamedTuple):
    """What a connection of the table has besides: its socket, what goes out on it, its packets' size, how values are spelled."""

    number: int
    transport: Any
    outgoing: Outgoing
    size: int
    spelling: Spelling


class Statistics(NamedTuple):
    """How a pool stands, and what it has done: how many connections are `open`, `lent`, parked (`kept`); how many callers are
    `waiting`; `leases` in all, those that had to wait (`waits`) and of these the ones that got nothing in time (`refused`);
    connections that were `opened`, `lost`, `cleaned`; the longest wait, in seconds."""

    open: int
    lent: int
    kept: int
    waiting: int
    leases: int
    waits: int
    refused: int
    opened: int
    lost: int
    cleaned: int
    longest_wait: float


class Table:
    """The table of at most so many connections. Who calls has no lock: each call takes it."""

    def __init__(self, most: int, size: int) -> None:
        self.service, self.lock = Service(most, size), threading.Lock()
        self.lines: Dict[int, Line] = {}
        # Who waits, the first one first: each a call that wakes it.
        self.waiting: Deque[Callable[[], object]] = collections.deque()
        self.is_closed = False
        self.lent = self.leases = self.waits = self.refused = self.opened = self.lost = self.cleaned = 0
        self.longest_wait = 0.0
        # By ticket the number of what is parked.
        self.kept: Dict[int, int] = {}

    @contextlib.contextmanager
    def _calling(self) -> Iterator[Service]:
        """One call of the table."""
        try:
            with self.lock:
                yield self.service
        except Fault as why:
            raise errors.InterfaceError(f"the pool refuses it: {why}") from why

    def lease(self, wakes: Optional[Callable[[], object]] = None, is_woken: bool = False) -> Optional[Lent]:
        """Lends a connection, where one can be, and nobody waits who came before. Else None, and who says what wakes him waits: at
        the end, or at the front where he was woken for nothing."""
        with self.lock:
            if self.is_closed:
                raise errors.InterfaceError("the pool is closed")
            lent = None
            if is_woken or not self.waiting:
                try:
                    lent = self.service.lease()
                    self.leases, self.lent = self.leases + 1, self.lent + 1
                except Fault as why:
                    if why.number != _ALL_IN_USE:
                        raise
            if lent:
                pass
            elif is_woken and wakes:
                self.waiting.appendleft(wakes)
            elif wakes:
                self.waits += 1
                self.waiting.append(wakes)
            return lent

    def give_up(self, wakes: Callable[[], object]) -> bool:
        """Waits no longer; False where it was woken just now."""
        with self.lock:
            is_waiting = wakes in self.waiting
            if is_waiting:
                self.waiting.remove(wakes)
                self.refused += 1
            return is_waiting

    def waited(self, since: float) -> None:
        """Somebody was lent a connection, who waits since then (time.monotonic())."""
        waited = time.monotonic() - since
        if waited > self.longest_wait:
            with self.lock:
                self.longest_wait = max(self.longest_wait, waited)

    def wake(self) -> None:
        """A connection has become free, or may be opened: the first who waits looks."""
        with self.lock:
            if self.waiting:
                self.waiting.popleft()()

    def outgoing(self, write: Callable[[bytes], object]) -> Outgoing:
        """What goes out on a connection, under the table's one lock."""
        return Outgoing(write, self.lock)

    def logged_in(self, line: Line) -> None:
        """A new connection is there."""
        with self._calling() as service:
            service.logged_in(line.number, line.size)
            self.lines[line.number] = line
            self.opened += 1

    def gone(self, number: int, was_lent: bool) -> None:
        """A connection is lost: it leaves the table, if it hasn't, and its socket is closed."""
        with self.lock:
            with contextlib.suppress(Fault):
                self.service.lost(number)
            line = self.lines.pop(number, None)
            self.lent, self.lost = self.lent - was_lent, self.lost + (line is not None)
        if line:
            line.transport.close()
        self.wake()

    def give_back(self, session: Exchange, lease: int, line: Line, cleans: bool) -> Tuple[Rest, Draining]:
        """Ends a lease: what is underway is cancelled, and read by the same session, whose lease is over."""
        left = Draining(self.service, line.number, cleans)
        try:
            with line.outgoing as out:
                self.lent -= 1
                ended = self.service.give_back(lease)
                session.link = left
                if ended.rest is Rest.FREE:
                    left.is_free()
                else:
                    session.cancel_until = time.monotonic() + session.cancel_timeout
                    out.put(ended.sends)
        except (Fault, OSError):
            return Rest.CLOSED, left
        return ended.rest, left

    def is_clean(self, link: Leased) -> bool:
        """Whether a cleaning has done what it is for."""
        with self._calling() as service:
            self.cleaned += 1
            return service.cleaned(link.lease).rest == Rest.FREE

    def keep(self, lease: int, number: int) -> int:
        """Keeps a lease's connection, of this number, with its transaction: the ticket."""
        with self._calling() as service:
            ticket = service.keep(lease)
            self.lent, self.kept[ticket] = self.lent - 1, number
            return ticket

    def resume(self, ticket: int) -> Lent:
        """Lends what was kept."""
        with self._calling() as service:
            lent = service.resume(ticket)
            self.leases, self.lent = self.leases + 1, self.lent + 1
            self.kept.pop(ticket, None)
            return lent

    def abandon(self, ticket: int) -> Tuple[int, Rest, Draining]:
        """Gives up what was kept: its number, and what is to be cleaned."""
        with self._calling() as service:
            ended = service.abandon(ticket)
            self.kept.pop(ticket, None)
            left = Draining(service, ended.number, True)
            if ended.rest == Rest.FREE:
                left.is_free()
            return ended.number, ended.rest, left

    def close(self) -> None:
        """Closes what is free or parked; what is lent, where it is given back. Nobody is lent anything any more."""
        with self.lock:
            self.is_closed = True
            free = [it for it in self.lines if not self.service.holder(it)] + [*self.kept.values()]
            self.kept.clear()
        for number in free:
            self.gone(number, False)
        while self.waiting:
            self.wake()

    def statistics(self) -> Statistics:
        """How it stands now."""
        with self.lock:
            return Statistics(len(self.lines), self.lent, len(self.kept), len(self.waiting), self.leases, self.waits, self.refused,
                              self.opened, self.lost, self.cleaned, self.longest_wait)
