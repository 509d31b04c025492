"""Connections and cursors for asyncio: those of `mouktelf.tds`, where each call that waits is awaited."""

import time
from typing import Any, AsyncIterator, Iterable, List, Optional

from ...client import Client, MessageKind
from ...outgoing import Outgoing
from .. import errors
from ..exchange import COMMIT, ROLL_BACK, Alone, begin
from ..place import Place, Row
from ..spelling import Spelling, named
from .session import Session
from .transport import opened


async def connect(dsn: str = "localhost", *by_place: str, timeout: Optional[float] = None, login_timeout: float = 15,
                  cancel_timeout: float = 10, autocommit: bool = False, isolation_level: int = 0, **how: Any) -> "Connection":
    """As `mouktelf.tds.connect`."""
    found = await opened(timeout=login_timeout, **named(dsn, by_place, how))
    session = Session(Alone(Client(found.size)), Outgoing(found.transport.write), found.size, found.transport, cancel_timeout)
    return Connection(session, found.spelling, timeout, autocommit, isolation_level)


class Connection:
    """As `mouktelf.tds.Connection`, which tasks may share."""

    def __init__(self, session: Session, spelling: Spelling, timeout: Optional[float], autocommit: bool, isolation_level: int) -> None:
        self.timeout, self.isolation_level, self.autocommit = timeout, isolation_level, autocommit
        self._session, self._spelling, self._is_closed = session, spelling, False

    @property
    def session(self) -> Session:
        """Its session. InterfaceError where the connection is closed, or was given back."""
        if self._is_closed:
            raise errors.InterfaceError("the connection is closed")
        return self._session

    async def in_transaction(self) -> bool:
        """Whether a transaction is open, by what the server told, however it began."""
        session = self.session
        async with session.turn:
            await session.settle(self.until())
            return session.descriptor != 0

    def until(self) -> Optional[float]:
        """By when a call that begins now is to be done."""
        return None if self.timeout is None else time.monotonic() + self.timeout

    def cursor(self) -> "Cursor":
        """A new cursor."""
        self.session
        return Cursor(self)

    async def commit(self) -> None:
        """Commits the open transaction, if there is one."""
        await self._end(COMMIT)

    async def rollback(self) -> None:
        """Rolls the open transaction back, if there is one."""
        await self._end(ROLL_BACK)

    async def begin_if_due(self, until: Optional[float]) -> None:
        """In a turn: begins a transaction, where none is open and statements are to stand in one."""
        session = self.session
        if not self.autocommit:
            await session.settle(until)
            if session.descriptor == 0:
                await session.run(MessageKind.TRANSACTION, begin(self.isolation_level), until)

    async def _end(self, body: bytes) -> None:
        session, until = self.session, self.until()
        async with session.turn:
            await session.settle(until)
            if session.descriptor:
                await session.run(MessageKind.TRANSACTION, body, until)

    async def close(self) -> None:
        """Closes it: what is underway is left, and the server rolls an open transaction back."""
        if not self._is_closed:
            self._is_closed = True
            self._session.lost("the connection is closed")

    async def __aenter__(self) -> "Connection":
        return self

    async def __aexit__(self, kind: Optional[type], *_: object) -> None:
        """Commits, or rolls back where the block failed. The connection stays open."""
        if self.autocommit or self._is_closed:
            return
        if kind is None:
            await self.commit()
        elif self._session.failure is None:
            await self.rollback()


class Cursor(Place):
    """As `mouktelf.tds.Cursor`. Where a task is cancelled that waits here, so is its request, and the connection lives on."""

    def __init__(self, connection: Connection) -> None:
        super().__init__(connection._spelling)
        self.connection = connection

    async def execute(self, operation: str, parameters: Any = ()) -> "Cursor":
        """Asks, and waits until its first result begins."""
        return await self._ask(*self._spelling.request(operation, parameters))

    async def executemany(self, operation: str, sequence: Iterable[Any]) -> "Cursor":
        """The same for each of these parameters; `rowcount` is their sum."""
        total = -1
        for parameters in sequence:
            await self.execute(operation, parameters)
            total = max(total, 0) + max(self.rowcount, 0)
            while await self.nextset():
                total += max(self.rowcount, 0)
        self._count = total
        return self

    async def callproc(self, name: str, parameters: Any = ()) -> Any:
        """Calls a procedure, and reads its whole answer into memory."""
        await self._ask(MessageKind.PROCEDURE, self._spelling.procedure(name, parameters))
        await self._wait(lambda: False)
        return self._with_outputs(parameters)

    async def return_value(self) -> Optional[int]:
        """What a procedure has returned; the rest of its answer is read into memory for that."""
        await self._wait(lambda: self._answer.return_status is not None)
        return self._answer.return_status

    async def _ask(self, kind: MessageKind, body: bytes) -> "Cursor":
        session, until = self.connection.session, self.connection.until()
        async with session.turn:
            answer = self._restart()
            await self.connection.begin_if_due(until)
            await session.ask(answer, kind, body, until)
            await session.wait(answer, lambda: answer.sets, until)
        self._enter()
        return self

    async def _wait(self, has_enough: Any) -> None:
        session, until = self.connection.session, self.connection.until()
        async with session.turn:
            await session.wait(self._answer, has_enough, until)

    def cancel(self) -> bool:
        """Cancels its request, where that is underway; whether it was. It doesn't wait."""
        return self.connection.session.cancel(self._answer)

    async def nextset(self) -> Optional[bool]:
        """Goes on to the next result: True, or None where there is none."""
        left = self._set
        if self._columns and not left.is_whole:
            left.drop()
            await self._wait(lambda: left.is_whole)
        self._raise_error()
        answer = self._answer
        await self._wait(lambda: answer.sets)
        return self._enter()

    async def fetchone(self) -> Optional[Row]:
        """The next row, or None behind the last one."""
        rows = self._rows().rows
        if not rows and not await self._more():
            return None
        return self._columns.read(rows.popleft())  # type: ignore[union-attr]

    async def fetchmany(self, size: Optional[int] = None) -> List[Row]:
        """So many rows, `arraysize` where it isn't said; fewer at the end."""
        left, found = self.arraysize if size is None else size, []  # type: int, List[Row]
        rows = self._rows().rows
        while left > len(found) and (rows or await self._more()):
            found += self._taken(left - len(found))
        return found

    async def fetchall(self) -> List[Row]:
        """All rows that are left."""
        rows, found = self._rows().rows, []  # type: Any, List[Row]
        while rows or await self._more():
            found += self._taken()
        return found

    async def _more(self) -> bool:
        own = self._rows()
        if not own.is_whole:
            await self._wait(lambda: own.rows or own.is_whole)
        if not own.rows:
            self._raise_error()
        return bool(own.rows)

    def close(self) -> None:
        """Closes it. What is left of its answer is read to its end, once its connection is asked again: nothing is cancelled."""
        self._answer.drop()
        self._is_closed = True

    def __aiter__(self) -> AsyncIterator[Row]:
        return self

    async def __anext__(self) -> Row:
        row = await self.fetchone()
        if row is None:
            raise StopAsyncIteration
        return row

    async def __aenter__(self) -> "Cursor":
        return self

    async def __aexit__(self, *_: object) -> None:
        self.close()
