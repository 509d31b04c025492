"""What tests/relay looks at of a tdsrelay that shares by transactions before `tdsserve --real`: what it asks a server first
finds out scripts that tell too little.
"""

import json

from peers import Server, connect, message, with_features
from relay_told import Relay

RECOVERY = 1
# A script's events, and the question that finds them out.
SCRIPTS = (
    ([], None),
    ([["untold", "lock_timeout"]], "a setting"),
    ([["untold", "isolation level"]], "the isolation level"),
    ([["untold", "tables"]], "a temporary table"),
    ([["untold", "cursors"]], "a cursor"),
    ([["untold", "locks"]], "an application lock"),
    ([["left", "lock_timeout"]], "a reset"),
    ([["unrecoverable"]], "a reset"),
    ([["last_number"]], "a setting"),
)


def asked(program, cases, serve, room):
    for events, question in SCRIPTS:
        with open(f"{room}/asked.json", "w", encoding="ascii") as file:
            json.dump({"version": 1, "events": events}, file)
        with (Server(serve, "--real", "--script", f"{room}/asked.json") as server,
              Relay(program, server.port, "--share", "transaction") as relay,
              connect(relay.port) as link):
            link.sendall(with_features((RECOVERY, b"")))
            message(link)
            group = relay.json()["groups"][0]
        cases.same(f"asked of {events}", (group.get("shares_by_sessions"), "partings" in group), (question, not question))
