"""A scene of tests/relay_limits: what nothing happens to is looked at where somebody's order concerns it. All here rest
before that, for longer than from one look at time limits to the next.

What is wanted is written by hand.
"""

import contextlib
import time

from relay_servers import Before
from relay_told import Relay, closes, error_packet, log_in, rows

# Seconds: twice the longest time from one look to the next, and the one within which all is to be done.
REST, SOON = 1.2, 10


def soon(relay, is_so):
    """Whether that is told in time."""
    end = time.monotonic() + SOON
    while time.monotonic() < end:
        if is_so(relay.json()):
            return True
        time.sleep(0.05)
    return False


@contextlib.contextmanager
def freed(program, server, *words):
    """A relay with a connection that is free, and has rested."""
    with Relay(program, server, *words) as relay:
        one = log_in(relay)
        if not rows(one, 1):
            raise OSError("no row comes")
        one.close()
        if not soon(relay, lambda it: it["connections_free"] == 1):
            raise OSError("no connection is free")
        time.sleep(REST)
        yield relay


def has_none_free(it):
    return it["connections_free"] == 0


def rested(program, cases, server, room):
    with freed(program, server.port) as relay:
        relay.ask(f"/pause/{relay.json()['groups'][0]['group']}", "POST")
        cases.check("a pause closes what has been free", soon(relay, has_none_free))
    path = f"{room}/rested.toml"
    with open(path, "w", encoding="ascii") as file:
        file.write("idle = 600\n")
    with freed(program, server.port, "--config", path) as relay:
        with open(path, "w", encoding="ascii") as file:
            file.write("idle = 1\n")
        relay.ask("/reload", "POST")
        cases.check("other settings are those of what has been free", soon(relay, has_none_free))
    with Before(server) as before, freed(program, before.port, "--judge-again", "2") as relay:
        before.ends = error_packet(18456, "no")[8:]
        cases.check("so does a login that isn't authenticated any more", soon(relay, has_none_free))
    with Relay(program, server.port) as relay:
        quiet, one = log_in(relay), log_in(relay)
        cases.check("a row before a rest", rows(one, 1))
        time.sleep(REST)
        begun = time.monotonic()
        relay.ask("/drain", "POST")
        cases.check("the end closes who has been quiet", closes(quiet) and closes(one) and relay.child.wait(SOON) == 0
                    and time.monotonic() - begun < SOON)
