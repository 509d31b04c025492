"""The session of one connection, without input or output: what is asked and cancelled goes to the proved client, and what it tells
to the answer of the request that asked. Threads and asyncio have the same (`session`, `aio.session`)."""

import contextlib
import time
from typing import Callable, List, Optional, Tuple, Union

from ..client import Answer as Did
from ..client import Client, MessageKind, packets_of
from ..fault import Fault
from ..outgoing import Outgoing
from ..service import Service
from . import errors
from .answer import Answer, Told

_HEADER = 8
# The bodies of a transaction's ends (MS-TDS 2.2.6.9).
COMMIT, ROLL_BACK = b"\7\0\0\0", b"\x08\0\0\0"


def begin(isolation: int) -> bytes:
    """The body of a transaction's begin, at an isolation level of 0 to 5."""
    return bytes((5, 0, isolation, 0))


class Late(Exception):
    """A deadline has passed."""


Link = Union["Alone", "Leased", "Draining"]


class Alone:
    """The client of a connection that nobody shares."""

    def __init__(self, client: Client) -> None:
        self._client = client
        # The packets of a request; what one packet's data did, and the tokens that are told.
        self.ask, self.hear = client.ask, client.hear_plain
        self.cancel, self.lost = client.cancel, client.lost

    @property
    def descriptor(self) -> int:
        """That of the open transaction, 0 for none."""
        return self._client.descriptor


class Leased:
    """The client of a connection in a table, for as long as a lease lasts: each call behind its end is refused."""

    def __init__(self, service: Service, lease: int, number: int) -> None:
        self._service, self.lease, self.number, self._request = service, lease, number, 0

    def ask(self, kind: MessageKind, body: bytes) -> bytes:
        """The packets of a request."""
        asked, packets = self._service.ask_all(self.lease, kind, body)
        self._request = asked.request
        return packets

    def cancel(self) -> Tuple[Did, bytes]:
        """Cancels what is underway: the bytes to send."""
        return self._service.cancel(self.lease)

    def hear(self, data: bytes, ends: int) -> Tuple[Did, List[Told]]:
        """What one packet's data did, and the tokens that are told: none that is another's."""
        lease, request, answer, tokens = self._service.hear_plain(self.number, data, ends)
        if tokens and (lease, request) != (self.lease, self._request):
            raise errors.InternalError(f"lease {self.lease} is told what is lease {lease}'s")
        return answer, tokens

    def lost(self) -> None:
        """The connection is lost: it breaks, and leaves the table when it is given back."""
        self._service.client(self.lease).lost()

    @property
    def descriptor(self) -> int:
        """That of the open transaction, 0 for none."""
        return self._service.client(self.lease).descriptor


class Draining:
    """The client of a connection in a table that nobody holds, until its cancel is acknowledged. Then, before anybody is lent it, it
    is lent to be cleaned, where it has to be: `cleaning`."""

    def __init__(self, service: Service, number: int, cleans: bool) -> None:
        self._service, self._number, self._cleans = service, number, cleans
        self.cleaning: Optional[Leased] = None

    def ask(self, kind: MessageKind, body: bytes) -> bytes:
        """Nobody asks here."""
        raise errors.InterfaceError("the connection was given back")

    def cancel(self) -> Tuple[Did, bytes]:
        """Nobody cancels here: that is done."""
        return Did.ALREADY, b""

    def hear(self, data: bytes, ends: int) -> Tuple[Did, List[Told]]:
        """What one packet's data did; nobody is told of it."""
        answer = self._service.hear_plain(self._number, data, ends).answer
        if answer == Did.ACKNOWLEDGED:
            self.is_free()
        return answer, []

    def is_free(self) -> None:
        """The connection is free: it is lent to be cleaned, where that is wanted, or a transaction is open on it."""
        if self._cleans or self.descriptor:
            self.cleaning = Leased(self._service, self._service.clean(self._number).lease, self._number)

    def lost(self) -> None:
        """The connection is lost, and leaves the table."""
        self._service.lost(self._number)

    @property
    def descriptor(self) -> int:
        """That of the open transaction, 0 for none."""
        return self._service.descriptor(self._number)


class Exchange:
    """What is asked on one connection, one request at a time. `current` is the answer that is awaited; `failure` makes the error of
    a connection that is lost. Whoever asks, and whoever takes what comes, is one at a time; `cancel` may be called meanwhile."""

    current: Optional[Answer] = None
    failure: Optional[Callable[[], errors.Error]] = None
    # By when the acknowledgement must have come; and whether the cancelled request began what nobody was told of.
    cancel_until: Optional[float] = None
    owes_rollback = False
    _came, _descriptor = b"", 0

    def __init__(self, link: Link, outgoing: Outgoing, size: int, cancel_timeout: float) -> None:
        """`cancel_timeout`: so many seconds a cancel's acknowledgement is awaited, before the connection is given up."""
        self.link, self.outgoing, self.cancel_timeout, self._size = link, outgoing, cancel_timeout, size

    def start(self, answer: Answer, kind: MessageKind, body: bytes) -> None:
        """Asks, where nothing is underway: from here on what comes is this answer's."""
        if self.failure:
            raise self.failure()
        if self._came:
            raise self.lost("a part of a packet has come where nothing was asked")
        outgoing = self.outgoing
        try:
            with outgoing:
                packets = self.link.ask(kind, body)
                self.current, answer.is_ended = answer, False
                outgoing.put(packets)
        except BaseException as why:
            raise self._unsent(why)

    def cancel(self, answer: Answer) -> bool:
        """Cancels the request of this answer, where it is underway still: never another one's. From any thread."""
        outgoing = self.outgoing
        try:
            with outgoing:
                if self.current is not answer or answer.is_cancelled:
                    return False
                attention = self.link.cancel()[1]
                self._descriptor, self.cancel_until = self.link.descriptor, time.monotonic() + self.cancel_timeout
                answer.cancelled()
                outgoing.put(attention)
        except BaseException as why:
            raise self._unsent(why)
        return True

    def _unsent(self, why: BaseException) -> BaseException:
        """What is raised where a call, or writing what it gave, ended so. Where writing failed or was cut off, the connection is lost."""
        found = why
        if isinstance(why, Fault):
            found = errors.InterfaceError(f"it can't be done now: {why}")
        elif isinstance(why, OSError):
            found = self.lost(f"nothing can be sent: {why}")
        elif not isinstance(why, Exception):
            self.lost("it was interrupted in the middle of what was to be sent")
        if found is not why:
            found.__cause__ = why
        return found

    def seconds(self, until: Optional[float], most: float) -> float:
        """How long may be waited now for what comes: up to a deadline (time.monotonic()), or that of a cancel that isn't acknowledged
        yet. Where it has passed: Late, or the connection is lost."""
        now, limit = time.monotonic(), self.cancel_until or until
        if limit is not None and now >= limit:
            if self.cancel_until:
                raise self.lost(f"no cancel was acknowledged within {self.cancel_timeout:g} s")
            raise Late
        return most if limit is None else min(most, limit - now)

    def take(self, piece: bytes) -> None:
        """Hears what has come on the socket, of any length; none: the server has closed. Where that ends the connection, whoever waits
        for an answer that isn't whole is told so."""
        awaited = self.current
        if not piece:
            raise self.lost("the server has closed the connection")
        try:
            packets, self._came = packets_of(self._came + piece if self._came else piece, self._size)
            for packet in packets:
                # Nobody cancels meanwhile.
                with self.outgoing.lock:
                    self._hear(packet)
        except Fault as why:
            error = self.lost(f"the server broke the protocol: {why}")
            if awaited is None or not awaited.is_ended or awaited.failure:
                raise error from why
        except Exception:
            raise
        except BaseException:
            self.lost("it was interrupted in the middle of what came")
            raise

    def _hear(self, packet: bytes) -> None:
        data, ends = packet[_HEADER:], packet[1] & 1
        did, tokens = self.link.hear(data, ends)
        answer = self.current
        if answer is None:
            return
        answer.hear(data, tokens, ends)
        if did is Did.FINISHED:
            answer.is_ended, self.current = True, None
        elif did is Did.ACKNOWLEDGED:
            answer.is_ended, self.current, self.cancel_until = True, None, None
            self.owes_rollback = self.link.descriptor not in (0, self._descriptor)

    def lost(self, text: str) -> errors.Error:
        """The connection is lost, if it wasn't: the error that says why."""
        if self.failure is None:
            self.failure = lambda: errors.ConnectionLost(text)
            with contextlib.suppress(OSError, Fault), self.outgoing:
                answer, self.current = self.current, None
                if answer:
                    answer.fail(self.failure)
                    answer.is_ended = True
                self.link.lost()
            self.close()
        return self.failure()

    @property
    def descriptor(self) -> int:
        """That of the open transaction, 0 for none, by what was heard."""
        with self.outgoing.lock:
            return self.link.descriptor

    @property
    def is_clear(self) -> bool:
        """Whether nothing is underway, and no part of a packet has come."""
        return not (self.current or self.failure or self._came)

    def close(self) -> None:
        """Closes the socket."""
        raise NotImplementedError
