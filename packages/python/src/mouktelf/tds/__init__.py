"""A module of DB-API 2.0 (PEP 249) over the proved client.

    from mouktelf import tds
    connection = tds.connect("127.0.0.1", port=1433, user="sa", password="..", timeout=30)
    with connection, connection.cursor() as cursor:         # commits, or rolls back
        cursor.execute("select name from users where id = %s", (7,))
        print(cursor.fetchall())

What goes out when, cancels, transactions by their descriptor, resets, and who is told what: all of that is the client's. Login,
encryption, and the spelling of parameters and types come from python-tds, which is to be installed. `Pool` lends connections to
threads, and `aio` has all of it for asyncio."""

import datetime as _datetime
import time as _time

from .connection import Connection, Cursor, connect
from .errors import (
    Cancelled, ConnectionLost, DatabaseError, DataError, Error, IntegrityError, InterfaceError, InternalError, Message,
    NotSupportedError, OperationalError, ProgrammingError, TimeoutError, Warning,
)
from .pool import Pool, Pooled
from .rows import BINARY, DATETIME, NUMBER, ROWID, STRING
from .spelling import Binary, Column, default, output
from .table import Statistics

apilevel, paramstyle = "2.0", "pyformat"
# Threads may share the module and connections.
threadsafety = 2

Date, Time, Timestamp = _datetime.date, _datetime.time, _datetime.datetime


def DateFromTicks(ticks: float) -> _datetime.date:
    """The day of these seconds since 1970, by the machine's own time."""
    return Date(*_time.localtime(ticks)[:3])


def TimeFromTicks(ticks: float) -> _datetime.time:
    """The time of day of these seconds since 1970, by the machine's own time."""
    return Time(*_time.localtime(ticks)[3:6])


def TimestampFromTicks(ticks: float) -> _datetime.datetime:
    """The moment of these seconds since 1970, by the machine's own time."""
    return Timestamp(*_time.localtime(ticks)[:6])


__all__ = [
    "BINARY", "Binary", "Cancelled", "Column", "Connection", "ConnectionLost", "Cursor", "DATETIME", "DataError", "DatabaseError", "Date",
    "DateFromTicks", "Error", "IntegrityError", "InterfaceError", "InternalError", "Message", "NUMBER", "NotSupportedError",
    "OperationalError", "Pool", "Pooled", "ProgrammingError", "ROWID", "STRING", "Statistics", "Time", "TimeFromTicks", "TimeoutError",
    "Timestamp", "TimestampFromTicks", "Warning", "apilevel", "connect", "default", "output", "paramstyle", "threadsafety",
]
