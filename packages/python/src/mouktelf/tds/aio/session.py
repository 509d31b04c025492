"""The session of one connection for asyncio: whoever waits for an answer reads, one task at a time."""

import asyncio
import time
from typing import Callable, Optional

from ...client import MessageKind
from ...outgoing import Outgoing
from .. import errors
from ..answer import Answer
from ..exchange import ROLL_BACK, Exchange, Late, Link
from ..transport import LOOK
from .transport import Transport


class Session(Exchange):
    """Who has the `turn` may call what waits. Deadlines are by time.monotonic(), None for none. Where a task is cancelled while it
    waits for its own answer, so is its request; the acknowledgement is read by whoever asks next."""

    def __init__(self, link: Link, outgoing: Outgoing, size: int, transport: Transport, cancel_timeout: float) -> None:
        super().__init__(link, outgoing, size, cancel_timeout)
        self.turn = asyncio.Lock()
        self.transport = transport

    def close(self) -> None:
        self.transport.close()

    async def ask(self, answer: Answer, kind: MessageKind, body: bytes, until: Optional[float]) -> None:
        """Asks, behind what is underway."""
        await self.settle(until)
        # What has come before it is asked isn't its answer: an end, or a breach.
        strays = None if self.transport.is_quiet() else await self.transport.read(0)
        if strays is not None:
            self.take(strays)
        self.start(answer, kind, body)

    async def run(self, kind: MessageKind, body: bytes, until: Optional[float]) -> Answer:
        """Asks, and reads the whole answer. Raises the first error that it has."""
        answer = Answer()
        await self.ask(answer, kind, body, until)
        await self.wait(answer, lambda: False, until)
        for error in (it.error for it in answer.sets if it.error):
            raise error
        return answer

    async def settle(self, until: Optional[float] = None) -> None:
        """Reads what is underway to its end, as `mouktelf.tds.session` does."""
        try:
            while self.current:
                await self.read(until)
        except Late:
            raise errors.TimeoutError("the connection is busy with the answer of another cursor") from None
        if self.failure:
            raise self.failure()
        if self.owes_rollback:
            await self._roll_back()

    async def wait(self, answer: Answer, has_enough: Callable[[], object], until: Optional[float]) -> None:
        """Reads until the answer has enough, or has ended. Where it takes too long it is cancelled, and its acknowledgement read."""
        try:
            while not (answer.is_ended or answer.is_cancelled or has_enough()):
                await self.read(until)
        except Late:
            if self.cancel(answer):
                await self.settle()
                raise errors.TimeoutError("the request took too long, and was cancelled") from None
        except asyncio.CancelledError:
            self.cancel(answer)
            raise
        if answer.is_cancelled:
            await self.settle()
        if answer.failure:
            raise answer.failure()

    async def _roll_back(self) -> None:
        self.owes_rollback = False
        answer, until = Answer(), time.monotonic() + self.cancel_timeout
        self.start(answer, MessageKind.TRANSACTION, ROLL_BACK)
        try:
            while self.current is answer:
                await self.read(until)
        except Late:
            raise self.lost(f"no rollback was answered within {self.cancel_timeout:g} s") from None

    async def read(self, until: Optional[float]) -> None:
        """Takes what comes next. A cancel has a limit of its own."""
        piece = None
        while piece is None:
            piece = await self.transport.read(self.seconds(until, LOOK))
        self.take(piece)
