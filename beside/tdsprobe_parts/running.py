"""Runs the probes against a server, and keeps what comes."""

import secrets
import ssl
from dataclasses import dataclass

from . import attentions, ends, recording, resets, sharing, tokens, transactions
from .link import Closed, Silent
from .registry import PROBES, Probe, asks
from .session import Refused

# Each of these puts its probes into PROBES.
MODULES = (attentions, resets, transactions, ends, sharing)


@dataclass(frozen=True)
class Made:
    """What a run makes in the database, and drops at its end: names that nothing else has."""

    table: str
    user: str
    role: str
    role_password: str

    def prepare(self):
        return (f"create table {self.table} (n int primary key, v int)",
                f"insert into {self.table} values (1, 1), (2, 2)",
                f"create user {self.user} without login",
                f"create application role {self.role} with password = '{self.role_password}'")

    def tidy(self):
        return (f"drop table {self.table}", f"drop user {self.user}", f"drop application role {self.role}")


def make():
    name = f"tdsprobe_{secrets.token_hex(4)}"
    return Made(name, f"{name}_user", f"{name}_role", f"Aa1-{secrets.token_hex(8)}")


def held(server, made, name, asked, run):
    """What a probe comes to: its connections, and how it ended."""
    probe = Probe(server, made)
    try:
        run(probe)
        ended = "done"
    except Closed as error:
        ended = f"the server closed the connection: {error}"
    except Silent:
        ended = f"nothing came for {server.patience:g} seconds"
    except (Refused, OSError, ssl.SSLError) as error:
        ended = f"failed: {error}"
    finally:
        probe.close()
    return {"name": name, "asks": asked, "ended": ended, "connections": probe.connections}


def statements(texts, told):
    """A probe that runs these, and tells of those that fail."""
    def run(probe):
        session = probe.session()
        for text in texts:
            for error in session.run(text).of(tokens.ERROR):
                told(f"{text.split(' (')[0][:60]}: {error.line}")
    return run


def run(server, server_is, session, names, told):
    """A recording of these probes. `told` is called with a line for each."""
    kept = recording.new(server_is, session)
    made = make()

    def keep(name, asked, probe):
        it = held(server, made, name, asked, probe)
        kept["probes"].append(it)
        told(f"{name}: {it['ended']}")

    keep("prepare", "What the probes use, in the database of the login.", statements(made.prepare(), told))
    try:
        for name in names:
            keep(name, asks(PROBES[name]), PROBES[name])
    except KeyboardInterrupt:
        told("interrupted: what was recorded so far is kept")
    finally:
        keep("tidy", "What `prepare` made is dropped.", statements(made.tidy(), told))
    return kept
