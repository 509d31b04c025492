"""Connections and cursors of DB-API 2.0 for threads."""

import time
from typing import Any, Iterable, Iterator, List, Optional

from ..client import Client, MessageKind
from ..outgoing import Outgoing
from . import bulk, errors
from .exchange import COMMIT, ROLL_BACK, Alone, begin
from .place import Place, Row
from .session import Session
from .spelling import LoggedIn, Spelling, log_in, named
from .transport import Encrypted, Transport


def transport_of(logged_in: LoggedIn) -> Transport:
    """The transport over what a login has left."""
    return Encrypted(logged_in.socket, logged_in.tls) if logged_in.tls else Transport(logged_in.socket)


def connect(dsn: str = "localhost", *by_place: str, timeout: Optional[float] = None, login_timeout: float = 15,
            cancel_timeout: float = 10, autocommit: bool = False, isolation_level: int = 0, **how: Any) -> "Connection":
    """Connects, and logs in by python-tds, whose other words `how` are: port, database, user, password, auth, cafile .. `by_place`
    are database, user and password.

    Of the seconds `timeout` is the limit of each call that waits for an answer (None for none): behind it the request is cancelled.
    `login_timeout` is that of the login, and `cancel_timeout` that of a cancel's acknowledgement, before the connection is given up.
    Raises OperationalError and its kinds where there is no connection, or the login is refused."""
    found = log_in(timeout=login_timeout, **named(dsn, by_place, how))
    transport = transport_of(found)
    session = Session(Alone(Client(found.size)), Outgoing(transport.write), found.size, transport, cancel_timeout)
    return Connection(session, found.spelling, timeout, autocommit, isolation_level)


class Connection:
    """A connection, which threads may share: each call of a cursor is one turn on it. It is never opened anew by itself."""

    Warning, Error, InterfaceError, DatabaseError = errors.Warning, errors.Error, errors.InterfaceError, errors.DatabaseError
    DataError, OperationalError, IntegrityError = errors.DataError, errors.OperationalError, errors.IntegrityError
    InternalError, ProgrammingError, NotSupportedError = errors.InternalError, errors.ProgrammingError, errors.NotSupportedError

    def __init__(self, session: Session, spelling: Spelling, timeout: Optional[float], autocommit: bool, isolation_level: int) -> None:
        self.timeout, self.isolation_level = timeout, isolation_level
        self._session, self._spelling, self._autocommit = session, spelling, autocommit
        self._is_closed = False

    @property
    def session(self) -> Session:
        """Its session. InterfaceError where the connection is closed, or was given back."""
        if self._is_closed:
            raise errors.InterfaceError("the connection is closed")
        return self._session

    @property
    def autocommit(self) -> bool:
        """Whether each statement is a transaction of its own. Else one begins before the first, at `isolation_level` (0 for the
        server's own; 1 read uncommitted, 2 read committed, 3 repeatable read, 4 serializable, 5 snapshot)."""
        return self._autocommit

    @autocommit.setter
    def autocommit(self, value: bool) -> None:
        if value != self._autocommit and self.in_transaction:
            raise errors.ProgrammingError("a transaction is open: commit it or roll it back first")
        self._autocommit = value

    @property
    def in_transaction(self) -> bool:
        """Whether a transaction is open, by what the server told, however it began."""
        session = self.session
        with session.turn:
            session.settle(self.until())
            return session.descriptor != 0

    def until(self) -> Optional[float]:
        """By when a call that begins now is to be done."""
        return None if self.timeout is None else time.monotonic() + self.timeout

    def cursor(self) -> "Cursor":
        """A new cursor."""
        self.session
        return Cursor(self)

    def commit(self) -> None:
        """Commits the open transaction, if there is one. Where that takes too long, `in_transaction` says whether it is open still."""
        self._end(COMMIT)

    def rollback(self) -> None:
        """Rolls the open transaction back, if there is one."""
        self._end(ROLL_BACK)

    def begin_if_due(self, until: Optional[float]) -> None:
        """Begins a transaction, where none is open and statements are to stand in one."""
        if not self._autocommit:
            session = self.session
            session.settle(until)
            if session.descriptor == 0:
                session.run(MessageKind.TRANSACTION, begin(self.isolation_level), until)

    def _end(self, body: bytes) -> None:
        session, until = self.session, self.until()
        with session.turn:
            session.settle(until)
            if session.descriptor:
                session.run(MessageKind.TRANSACTION, body, until)

    def close(self) -> None:
        """Closes it: what is underway is left, and the server rolls an open transaction back."""
        if not self._is_closed:
            self._is_closed = True
            self._session.lost("the connection is closed")

    def __enter__(self) -> "Connection":
        return self

    def __exit__(self, kind: Optional[type], *_: object) -> None:
        """Commits, or rolls back where the block failed. The connection stays open."""
        if self._autocommit or self._is_closed:
            return
        if kind is None:
            self.commit()
        elif self._session.failure is None:
            self.rollback()


class Cursor(Place):
    """A cursor: rows come as they are fetched. Where another cursor of its connection asks, what is left of them is kept."""

    def __init__(self, connection: Connection) -> None:
        super().__init__(connection._spelling)
        self.connection = connection

    def execute(self, operation: str, parameters: Any = ()) -> "Cursor":
        """Asks, and waits until its first result begins. A parameter stands as `%s`, or by name as `%(name)s`. What is left of the
        answer before is read to its end, and dropped. Raises DatabaseError and its kinds, TimeoutError, Cancelled."""
        return self._ask(*self._spelling.request(operation, parameters))

    def executemany(self, operation: str, sequence: Iterable[Any]) -> "Cursor":
        """The same for each of these parameters; `rowcount` is their sum."""
        total = -1
        for parameters in sequence:
            self.execute(operation, parameters)
            total = max(total, 0) + max(self.rowcount, 0)
            while self.nextset():
                total += max(self.rowcount, 0)
        self._count = total
        return self

    def callproc(self, name: str, parameters: Any = ()) -> Any:
        """Calls a procedure; its whole answer is read into memory, since outputs come last. A copy of the parameters, with what came
        of those that are `output(..)`. Its sets are fetched as any others."""
        self._ask(MessageKind.PROCEDURE, self._spelling.procedure(name, parameters))
        self._wait(lambda: False)
        return self._with_outputs(parameters)

    def copy_to(self, file: Any = None, table_or_view: str = "", sep: str = "\t", columns: Any = None, *, data: Any = None,
                schema: str = "", null_string: Optional[str] = None, **options: Any) -> "Cursor":
        """Loads the rows of `data`, or of a text with separators, as python-tds's; `rowcount` says how many the server took. A column
        is a name, for nvarchar(4000), or a `Column`; all of the table's where none is said. The load lies in memory, whole, before
        anything is sent. Options: check_constraints, fire_triggers, keep_nulls, kb_per_batch, rows_per_batch, order, tablock."""
        table = (bulk.quoted(schema) + "." if schema else "") + bulk.quoted(table_or_view)
        with self.connection.session.turn:
            if not columns:
                self.execute(f"select top 1 * from {table} where 1<>1")
                columns = [it[0] for it in self.description or ()]
            told = bulk.columns_of(columns)
            body, _ = bulk.body(self._spelling, told, bulk.rows_of(file, sep, null_string) if data is None else data)
            self.execute(bulk.statement(table, told, options))
            while self.nextset():
                pass
            return self._ask(MessageKind.BULK_LOAD, body)

    @property
    def return_value(self) -> Optional[int]:
        """What a procedure has returned; the rest of its answer is read into memory for that. None where it hasn't."""
        self._wait(lambda: self._answer.return_status is not None)
        return self._answer.return_status

    def _ask(self, kind: MessageKind, body: bytes) -> "Cursor":
        connection = self.connection
        session, until = connection.session, connection.until()
        with session.turn:
            answer = self._restart()
            connection.begin_if_due(until)
            session.ask(answer, kind, body, until)
            session.wait(answer, answer.sets.__len__, until)
        self._enter()
        return self

    def _wait(self, has_enough: Any) -> None:
        self.connection.session.wait(self._answer, has_enough, self.connection.until())

    def cancel(self) -> bool:
        """Cancels its request, from any thread, where that is underway; whether it was. Whoever waits for it is told Cancelled, and
        its connection lives on."""
        return self.connection.session.cancel(self._answer)

    def nextset(self) -> Optional[bool]:
        """Goes on to the next result, and drops what is left of this one: True, or None where there is none. Raises the error that
        either has."""
        left = self._set
        if self._columns and not left.is_whole:
            left.drop()
            self._wait(lambda: left.is_whole)
        self._raise_error()
        self._wait(self._answer.sets.__len__)
        return self._enter()

    def fetchone(self) -> Optional[Row]:
        """The next row, or None behind the last one."""
        rows = self._rows().rows
        if not rows and not self._more():
            return None
        return self._columns.read(rows.popleft())  # type: ignore[union-attr]

    def fetchmany(self, size: Optional[int] = None) -> List[Row]:
        """So many rows, `arraysize` where it isn't said; fewer at the end."""
        left, found = self.arraysize if size is None else size, []  # type: int, List[Row]
        rows = self._rows().rows
        while left > len(found) and (rows or self._more()):
            found += self._taken(left - len(found))
        return found

    def fetchall(self) -> List[Row]:
        """All rows that are left."""
        own, found = self._rows(), []  # type: Any, List[Row]
        while own.rows or (own.error or not own.is_whole) and self._more():
            found += self._taken()
        return found

    def _more(self) -> bool:
        """Waits for rows. Raises the error with which they end."""
        own = self._rows()
        if not own.is_whole:
            self._wait(lambda: own.rows or own.is_whole)
        if not own.rows:
            self._raise_error()
        return bool(own.rows)

    def close(self) -> None:
        """Closes it. What is left of its answer is read to its end, once its connection is asked again: nothing is cancelled."""
        self._answer.drop()
        self._is_closed = True

    def __iter__(self) -> Iterator[Row]:
        return self

    def __next__(self) -> Row:
        row = self.fetchone()
        if row is None:
            raise StopIteration
        return row

    def __enter__(self) -> "Cursor":
        return self

    def __exit__(self, *_: object) -> None:
        self.close()

    def __del__(self) -> None:
        self._answer.drop()
