"""The probes by name, and what each is given."""

from . import wire
from .session import Session
from .wire import ATTENTION

PROBES = {}

# One row for where the session stands. A user may see his own session in this view.
STATE = ("select @@trancount, xact_state(), db_name(), @@language, user_name(), s.transaction_isolation_level, @@options"
         " from sys.dm_exec_sessions s where s.session_id = @@spid")
# More rows than anybody reads, in any database.
ROWS = "select a.name, b.name from sys.all_columns a cross join sys.all_columns b"
# One value of 8 MB.
VALUE = "select replicate(cast('x' as varchar(max)), 8000000)"
WAIT = "waitfor delay '00:00:05'"
# What has reached the client before the statement that follows runs.
NOW = "raiserror('now', 0, 1) with nowait"
STOP = wire.packet(ATTENTION, b"")


def probe(run):
    """Takes a function among the probes: its name, and in its text what it asks the server."""
    PROBES[run.__name__] = run
    return run


def asks(run):
    """What a probe asks, as one line."""
    return " ".join(run.__doc__.split())


class Probe:
    """What a probe is given: connections, and the names of what it may use in the database."""

    def __init__(self, server, made):
        self.server, self.made, self.connections, self.open = server, made, [], []

    def session(self, features=b""):
        """A new connection, logged in, whose login asks for these features."""
        events = []
        self.connections.append(events)
        self.open.append(Session(self.server, events, features))
        return self.open[-1]

    def close(self):
        for session in self.open:
            session.close()
