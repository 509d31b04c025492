"""The exceptions of DB-API 2.0 (PEP 249), with what the server said."""

import builtins
from typing import List, NamedTuple, Type


class Message(NamedTuple):
    """An ERROR or INFO of a server (MS-TDS 2.2.7.10, 2.2.7.13)."""

    number: int
    state: int
    severity: int
    text: str
    server: str
    procedure: str
    line: int
    is_error: bool


class Warning(Exception):  # noqa: A001, the name is PEP 249's
    """What a server tells besides: an INFO, in `Cursor.messages`."""

    number = state = severity = line = 0
    text = server = procedure = ""


class Error(Exception):
    """Of every error the base. `number`, `state`, `severity`, `line`, `text`, `server` and `procedure` are what the server said,
    0 or empty where the error isn't the server's."""

    number = state = severity = line = 0
    text = server = procedure = ""


class InterfaceError(Error):
    """The module was used wrongly: a closed cursor, a connection that was given back."""


class DatabaseError(Error):
    """Of the errors of the database the base."""


class DataError(DatabaseError):
    """A value that can't be: out of range, cut off, of another type."""


class OperationalError(DatabaseError):
    """What isn't the program's fault: a server's refusal, a lost connection, a cancel."""


class IntegrityError(DatabaseError):
    """A constraint is violated."""


class InternalError(DatabaseError):
    """The server broke the protocol."""


class ProgrammingError(DatabaseError):
    """Wrong SQL, an unknown name, a fetch where there are no rows."""


class NotSupportedError(DatabaseError):
    """What this module doesn't do."""


class TimeoutError(OperationalError, builtins.TimeoutError):  # noqa: A001, as the built-in one, which it is
    """A limit in seconds has passed: the request was cancelled and its acknowledgement read, or a pool lent nothing."""


class Cancelled(OperationalError):
    """The request was cancelled, by `cancel()`: its answer isn't whole."""


class ConnectionLost(OperationalError):
    """The connection is gone, and its session with it: it is never opened anew by itself."""


# By the number of a SQL Server's ERROR; any other is an OperationalError.
_KINDS = {
    # No null, a foreign key or a check, a unique index, a key.
    **dict.fromkeys((515, 547, 2601, 2627), IntegrityError),
    # Syntax; an unknown column, table, procedure, or name of a column.
    **dict.fromkeys((102, 207, 208, 2812, 4104), ProgrammingError),
    # Out of range, not converted, cut off, divided by zero.
    **dict.fromkeys((220, 241, 242, 245, 529, 2628, 8114, 8115, 8134, 8152), DataError),
}
_TERMINATED = 3621


def error_of(messages: List[Message]) -> Error:
    """The exception for the ERRORs of one statement: of the last one's kind and number, with the texts of all. "The statement has
    been terminated" stands behind another one, and counts for nothing then."""
    told = [it for it in messages if it.number != _TERMINATED] or messages
    if not told:
        return OperationalError("the server says that the request failed, and not why")
    kind = _KINDS.get(told[-1].number, OperationalError)
    return _filled(kind(" ".join(it.text for it in told)), told[-1])


def exception_of(message: Message) -> Exception:
    """A message by itself, as `Cursor.messages` has it."""
    return error_of([message]) if message.is_error else _filled(Warning(message.text), message)


def _filled(it: Exception, message: Message) -> Exception:
    for name in ("number", "state", "severity", "text", "server", "procedure", "line"):
        setattr(it, name, getattr(message, name))
    return it


def named(name: str) -> Type[Error]:
    """The exception of this name, as another module of DB-API has it; OperationalError where there is none."""
    found = globals().get(name)
    return found if isinstance(found, type) and issubclass(found, Error) else OperationalError
