"""All that comes from python-tds, which the user installs: login, encryption, and the spelling of parameters and types.

Nothing else of this package knows python-tds. It is asked by `pytds.connect` until a connection is logged in; then its socket is
taken over, and what it keeps of the connection is asked only how values are spelled. Tried with python-tds 1.11."""

import struct
from typing import Any, Dict, List, Mapping, NamedTuple, Optional, Sequence, Tuple

from ..client import MessageKind
from . import errors

try:
    import pytds
    from pytds import tds as _tds
except ImportError as why:
    raise ImportError("mouktelf.tds wants python-tds: pip install python-tds, or Debian's package python3-tds") from why

output, default, Binary, Column = pytds.output, pytds.default, pytds.Binary, _tds.tds_base.Column
_BY_NUMBER, _EXECUTE_SQL = 0xFFFF, 10
# These words may stand behind the server's by their places, as python-tds takes them.
_BY_PLACE = ("database", "user", "password")
# What python-tds does with cursors, rows and connections of its own.
_NOT_OURS = ("use_mars", "pooling", "use_tz", "as_dict", "row_strategy")


class LoggedIn(NamedTuple):
    """A connection that python-tds has logged in: its socket, the TLS over it (None where it is clear), the size of packets that
    the login agreed on, and how values are spelled on it."""

    socket: Any
    tls: Any
    size: int
    spelling: "Spelling"


def named(dsn: str, by_place: Tuple[str, ...], how: Dict[str, Any]) -> Dict[str, Any]:
    """The words of a connection by their names, its server's as `dsn`: behind that database, user and password may stand by their
    places. TypeError: more than these, or one is there twice."""
    found = dict(zip(_BY_PLACE, by_place))
    if len(by_place) > len(_BY_PLACE) or found.keys() & how.keys():
        raise TypeError("by their places stand the server, the database, the user and the password")
    rest = {name: it for name, it in how.items() if name not in ("server", "host")}
    return {"dsn": how.get("server") or how.get("host") or dsn, **found, **rest}


def log_in(dsn: str, timeout: float, **how: Any) -> LoggedIn:
    """Connects and logs in. `timeout` is in seconds, for each step of it, and `how` as of `pytds.connect`. Raises the errors of this
    package."""
    for name in (it for it in _NOT_OURS if how.get(it)):
        raise errors.NotSupportedError(f"{name} is python-tds's own; for a pool there is mouktelf.tds.Pool")
    # By itself python-tds tries several times, and the first time gives a server a twelfth of the limit for each answer.
    how.setdefault("disable_connect_retry", not (how.get("failover_partner") or how.get("load_balancer")))
    try:
        return taken_over(pytds.connect(dsn=dsn, autocommit=True, login_timeout=timeout, **how))
    except pytds.Error as why:
        raise _as_ours(why) from why
    except OSError as why:
        raise errors.OperationalError(f"no connection to {dsn}: {why}") from why
    except ValueError as why:
        raise errors.InterfaceError(*why.args) from why
    except Exception as why:
        # The errors of TLS, and of the file that says whom to trust: python-tds gives them on.
        if not type(why).__module__.startswith("OpenSSL"):
            raise
        raise errors.OperationalError(f"no encrypted connection to {dsn}: {why}") from why


def taken_over(connection: Any) -> LoggedIn:
    """What python-tds has logged in. From here on it sends and reads nothing any more."""
    inner = connection._conn
    tls = getattr(inner.sock, "_tls_conn", None)
    socket = inner.sock._transport if tls else inner.sock
    return LoggedIn(socket, tls, inner.main_session._writer.bufsize, Spelling(inner.main_session))


def _as_ours(why: Exception) -> errors.Error:
    """An error of python-tds as one of this package."""
    found = errors.named(type(why).__name__)(*why.args)
    for name, theirs in (("number", "number"), ("state", "state"), ("severity", "severity"), ("line", "line"), ("text", "text"),
                         ("server", "srvname"), ("procedure", "procname")):
        setattr(found, name, getattr(why, theirs, getattr(errors.Error, name)))
    return found


class Spelling:
    """How values are spelled on one connection, by what its login was told: version, collation."""

    def __init__(self, session: Any) -> None:
        self.session, self.inner = session, session._tds

    def request(self, operation: str, parameters: Any) -> Tuple[MessageKind, bytes]:
        """The request that a text is with its parameters: a batch without, else a call of `sp_executesql` (2.2.6.6)."""
        text, values = placed(operation, parameters) if parameters else (operation, [])
        if not values:
            return MessageKind.BATCH, text.encode("utf-16-le", "surrogatepass")
        told = [self._parameter(*it) for it in values]
        declared = ",".join(f"{it.column_name} {it.type.get_declaration()}" for it in told)
        front = [self._parameter("", text), self._parameter("", declared)]
        return MessageKind.PROCEDURE, self._call(_EXECUTE_SQL, [*front, *told])

    def procedure(self, name: str, parameters: Any) -> bytes:
        """The body of a procedure's call by name, with the values of a sequence, or of a mapping of names."""
        pairs = parameters.items() if isinstance(parameters, Mapping) else (("", it) for it in parameters)
        return self._call(name, [self._parameter(*it) for it in pairs])

    def _parameter(self, name: str, value: Any) -> Any:
        try:
            return self.session.make_param(name, Binary(value) if isinstance(value, (bytes, bytearray, memoryview)) else value)
        except (pytds.Error, ValueError) as why:
            raise errors.DataError(*why.args) from why

    def _call(self, procedure: Any, parameters: Sequence[Any]) -> bytes:
        into = _Body(self.session)
        if isinstance(procedure, str):
            name = procedure.encode("utf-16-le", "surrogatepass")
            into.write(struct.pack("<H", len(name) // 2) + name)
        else:
            into.write(struct.pack("<HH", _BY_NUMBER, procedure))
        into.write(bytes(2))
        for it in parameters:
            self._write(it, into)
        return bytes(into.body)

    def _write(self, parameter: Any, into: "_Body") -> None:
        into.write_b_varchar(parameter.column_name)
        into.put_byte(parameter.flags)
        serializer = self.serializer(parameter)
        into.put_byte(serializer.type)
        serializer.write_info(into)
        self.spelled(serializer, parameter.value, into)

    def serializer(self, column: Any) -> Any:
        """What writes the values of a column, or of a parameter."""
        collation = self.inner.collation or pytds.collate.raw_collation
        return column.choose_serializer(type_factory=self.inner.type_factory, collation=collation)

    def spelled(self, serializer: Any, value: Any, into: "_Body") -> None:
        """Writes a value. DataError where its type can't spell it."""
        try:
            serializer.write(into, value)
        except (pytds.Error, ValueError, TypeError, AttributeError, OverflowError, struct.error) as why:
            raise errors.DataError(f"a value that its type can't spell: {value!r}") from why

    def body(self) -> "_Body":
        """Where what is spelled goes."""
        return _Body(self.session)


def text_column(name: str) -> Any:
    """A column of nvarchar(4000), which may be null."""
    return Column(name=name, type=pytds.tds_types.NVarCharType(size=4000), flags=Column.fNullable)


class _Body(_tds._TdsWriter):
    """Takes what is spelled, in place of a socket."""

    def __init__(self, session: Any) -> None:
        super().__init__(session, 4096)
        self.body = bytearray()

    def write(self, data: bytes) -> None:
        self.body += data


def placed(operation: str, parameters: Any) -> Tuple[str, List[Tuple[str, Any]]]:
    """The text with a name in each place of a parameter, and the names with their values. Of None the text says NULL."""
    try:
        if isinstance(parameters, Mapping):
            names = {name: f"@{name}" for name in parameters}
            places: Any = {name: "NULL" if value is None else names[name] for name, value in parameters.items()}
            pairs = [(names[name], value) for name, value in parameters.items()]
        else:
            pairs = [(f"@P{place}", value) for place, value in enumerate(parameters, 1)]
            places = tuple("NULL" if value is None else name for name, value in pairs)
        return operation % places, [it for it in pairs if it[1] is not None]
    except (TypeError, KeyError, ValueError) as why:
        raise errors.ProgrammingError(f"the parameters don't fit the text: {why}") from why


class _Wants(Exception):
    """The login goes on when more has come."""


class _Replayed:
    """What python-tds takes for a socket: it is given what came until now, and says what it would send."""

    def __init__(self, came: bytes) -> None:
        self.out, self._left = bytearray(), memoryview(came)

    def sendall(self, data: bytes) -> None:
        self.out += data

    def recv_into(self, into: memoryview, size: int) -> int:
        if not self._left:
            raise _Wants
        count = min(size, len(self._left))
        into[:count], self._left = self._left[:count], self._left[count:]
        return count

    def setsockopt(self, *_: Any) -> None:
        pass

    def settimeout(self, _: Any) -> None:
        pass

    def close(self) -> None:
        pass


def logged_in_by(came: bytes, dsn: str, **how: Any) -> Tuple[bytes, Optional[LoggedIn]]:
    """What a login without TLS, by a password, has sent once so much has come, from the first byte on; and the connection, where it is
    logged in by that. It waits for nothing: python-tds is asked anew each time, and says the same."""
    replayed = _Replayed(came)
    try:
        return bytes(replayed.out), log_in(dsn, 1, sock=replayed, **how)
    except _Wants:
        return bytes(replayed.out), None
