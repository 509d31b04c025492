"""The session of one connection for threads: whoever waits for an answer reads the socket, one at a time."""

import threading
import time
from typing import Callable, Optional

from ..client import MessageKind
from ..outgoing import Outgoing
from . import errors
from .answer import Answer
from .exchange import ROLL_BACK, Exchange, Late, Link
from .transport import LOOK, Transport


class Session(Exchange):
    """Who has the `turn` may ask and read. Deadlines are by time.monotonic(), None for none."""

    def __init__(self, link: Link, outgoing: Outgoing, size: int, transport: Transport, cancel_timeout: float) -> None:
        super().__init__(link, outgoing, size, cancel_timeout)
        self.turn = threading.RLock()
        self.transport = transport

    def close(self) -> None:
        self.transport.close()

    def ask(self, answer: Answer, kind: MessageKind, body: bytes, until: Optional[float]) -> None:
        """Asks, behind what is underway."""
        with self.turn:
            if self.current or self.failure or self.owes_rollback:
                self.settle(until)
            # What has come before it is asked isn't its answer: an end, or a breach.
            if not self.transport.is_quiet():
                self._take_strays()
            self.start(answer, kind, body)

    def _take_strays(self) -> None:
        strays = self.transport.read(0)
        if strays is not None:
            self.take(strays)

    def run(self, kind: MessageKind, body: bytes, until: Optional[float]) -> Answer:
        """Asks, and reads the whole answer. Raises the first error that it has."""
        answer = Answer()
        with self.turn:
            self.ask(answer, kind, body, until)
            self.wait(answer, lambda: False, until)
        for error in (it.error for it in answer.sets if it.error):
            raise error
        return answer

    def settle(self, until: Optional[float] = None) -> None:
        """Reads what is underway to its end: into memory, for whoever asked it, or to a cancel's acknowledgement. Then nothing is on
        its way, and no transaction is open that nobody was told of."""
        with self.turn:
            try:
                while self.current:
                    self.read(until)
            except Late:
                raise errors.TimeoutError("the connection is busy with the answer of another cursor") from None
            if self.failure:
                raise self.failure()
            if self.owes_rollback:
                self._roll_back()

    def wait(self, answer: Answer, has_enough: Callable[[], object], until: Optional[float]) -> None:
        """Reads until the answer has enough, or has ended. Where it takes too long it is cancelled, and its acknowledgement read."""
        with self.turn:
            try:
                while not (answer.is_ended or answer.is_cancelled or has_enough()):
                    self.read(until)
            except Late:
                if self.cancel(answer):
                    self.settle()
                    raise errors.TimeoutError("the request took too long, and was cancelled") from None
            if answer.is_cancelled:
                self.settle()
            if answer.failure:
                raise answer.failure()

    def _roll_back(self) -> None:
        self.owes_rollback = False
        answer, until = Answer(), time.monotonic() + self.cancel_timeout
        self.start(answer, MessageKind.TRANSACTION, ROLL_BACK)
        try:
            while self.current is answer:
                self.read(until)
        except Late:
            raise self.lost(f"no rollback was answered within {self.cancel_timeout:g} s") from None

    def read(self, until: Optional[float]) -> None:
        """Takes what comes next. A cancel has a limit of its own."""
        piece = None
        while piece is None:
            has_limit = until is not None or self.cancel_until is not None
            piece = self.transport.read(self.seconds(until, LOOK) if has_limit else LOOK)
        self.take(piece)
