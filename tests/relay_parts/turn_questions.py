"""Scenes of tests/relay_turns: what a relay asks a server before anybody shares by transactions, and servers that tell too
little, before which applications share by sessions. What is wanted is written by hand.
"""

import asyncio

from peers import connect, with_features
from relay_told import Relay
from turn_applications import Application
from turn_pairs import CLEANING, PATIENCE, SHARES, beside, until
from turn_server import Server
from turn_sessions import WAIT, Vices
from turn_tokens import END, RECOVERY, RESET, RESET_BUT_TRANSACTION

TABLE = "create table #tdsrelay (n int)"
BEHIND = END | RESET
ASKED = [
    (END, "set lock_timeout 5"),
    (BEHIND, "select 1"),
    (END, "set lock_timeout 5"),
    (BEHIND, "set transaction isolation level serializable"),
    (BEHIND, TABLE),
    (BEHIND, TABLE),
    (BEHIND, "declare tdsrelay cursor global for select 1"),
    (BEHIND, "exec sp_getapplock @Resource = 'tdsrelay', @LockMode = 'Shared', @LockOwner = 'Session'"),
    (BEHIND, "begin transaction"),
    (END | RESET_BUT_TRANSACTION, "select 1"),
    (BEHIND, "select 1"),
    (BEHIND, "call"),
    (END, "call"),
    (BEHIND, WAIT),
    (END, "cancel"),
    (END, "select 1"),
    (BEHIND, "select 1"),
]
# Servers that tell too little, and the question that finds it; before some no connection can be cleaned.
LITTLE = {
    "no_recovery": ("session recovery", Vices(is_silent=True)),
    "no_setting": ("a setting", Vices(hides="setting")),
    "states_that_cannot_be_read": ("a setting", Vices(is_unreadable=True)),
    "no_reset": ("a reset", Vices(hides="reset")),
    "setting_that_a_reset_leaves": ("a reset", Vices(leaves="setting")),
    "no_isolation_level": ("the isolation level", Vices(hides="level")),
    "no_table": ("a temporary table", Vices(hides="table")),
    "table_that_a_reset_leaves": ("a reset", Vices(leaves="table")),
    "no_cursor": ("a cursor", Vices(hides="cursor")),
    "no_lock": ("an application lock", Vices(hides="lock")),
    "no_transaction": ("a transaction", Vices(hides="transaction")),
    "no_reset_behind_one_that_keeps": ("a reset that keeps a transaction", Vices(hides="behind")),
    "no_handle": ("a prepared handle", Vices(hides="handle")),
    "nothing_behind_a_cancel": ("a cancel", Vices(hides="cancel")),
    "level_refused": ("the isolation level", Vices(refuses="level")),
    "table_refused": ("a temporary table", Vices(refuses="table")),
    "lock_refused": ("an application lock", Vices(refuses="lock")),
    "transaction_refused": ("a transaction", Vices(refuses="transaction")),
    "handle_refused": ("a prepared handle", Vices(refuses="handle")),
    "wait_refused": ("a cancel", Vices(refuses="cancel")),
}
# More than are judged at a time of one address.
KINDS = 40
# What is never answered, and the question of that.
SILENT = {"silent_at_a_table": (TABLE, "a temporary table"), "silent_at_a_cancel": ("cancel", "a cancel")}


def group_of(relay):
    return relay.json()["groups"][0]


async def in_turn(relay, one, two, how):
    """The second one asks while the first one, who has a connection, is there. Whether it is served then. Where the first one
    was parted, it is answered behind the second one."""
    await one.ask("get a")
    late = asyncio.ensure_future(two.ask("get b"))
    await until(lambda: late.done() or relay.json()["applications_waiting"] and how == "kept", "the second one")
    if how == "kept":
        await one.ask("get a")
    found = "shared" if late.done() else "kept"
    await one.leave()
    await asyncio.wait_for(late, 2 * PATIENCE)
    await two.leave()
    return found


async def two_at(relay, server, how):
    one = await Application(relay.port, server.vices).connect()
    two = await Application(relay.port, server.vices).connect()
    return await in_turn(relay, one, two, how)


def tells_all(program, cases):
    """What is asked on the first connection, and on no other one; then it is cleaned and lent."""
    async def run():
        cases.same("they share by transactions", await two_at(relay, server, "shared"), "shared")

    with Server() as server, Relay(program, server.port, "--most", "1", *SHARES) as relay:
        asyncio.run(run())
        (process, _), = server.logins
        cases.same("what is asked", server.questions_on(process), ASKED)
        cases.same("and behind that", server.asked_on(process)[0], CLEANING)
        cases.check("nothing is said of a question", "shares_by_sessions" not in group_of(relay), group_of(relay))


def tells_little(program, cases, question, vices):
    """Applications share by sessions, and it is told why."""
    async def run():
        if vices.hides == "reset":
            # No connection is clean there, so nobody is served.
            await Application(relay.port, vices).connect()
        else:
            cases.same(f"{question}: they share by sessions", await two_at(relay, server, "kept"), "kept")
        is_told(cases, relay, question)

    with Server(vices) as server, Relay(program, server.port, "--most", "1", "--log", *SHARES) as relay:
        asyncio.run(run())


def is_told(cases, relay, question):
    """By the page, its object, and the log."""
    group = group_of(relay)
    cases.same(f"{question}: the object", (group.get("shares_by_sessions"), group.get("partings")), (question, None))
    page = relay.ask("/")[1].decode()
    cases.check(f"{question}: the page", f"\n  shares by sessions: {question}\n" in page, page)
    lines = relay.lines()
    cases.check(f"{question}: the log", f"group {group['group']} shares by sessions: {question}" in lines, lines)


def closes(program, cases):
    """A server that closes the connection at a question: applications are served by another one."""
    async def run():
        cases.same("they share by sessions", await two_at(relay, server, "kept"), "kept")

    with Server() as server, Relay(program, server.port, "--most", "1", "--log", *SHARES) as relay:
        server.closes_at = TABLE
        asyncio.run(run())
        cases.same("it is asked no more", [server.questions_on(process) for process, _ in server.logins[1:]], [[]])
        is_told(cases, relay, "a temporary table")


def is_silent(program, cases, text, question):
    """A server that doesn't answer a question: it has the time of a login for all of them. The login that is begun anew then
    has its own, and who waits is there for both."""
    async def run():
        cases.same(f"{question}: they share by sessions", await two_at(relay, server, "kept"), "kept")

    with Server() as server, Relay(program, server.port, "--most", "1", "--login", "4", "--log", *SHARES) as relay:
        server.silent_at, server.late = text, 2
        asyncio.run(run())
        cases.same(f"{question}: the limit is a login's", relay.json()["total_limits_login"], 1)
        is_told(cases, relay, question)


def waited_for(program, cases):
    """Who comes while the server is asked is authenticated behind that, and the first one needn't stay for it."""
    async def run():
        first = connect(relay.port)
        first.sendall(with_features((RECOVERY, b"")))
        await until(lambda: server.is_waited_at, "a question")
        others = [asyncio.ensure_future(Application(relay.port, server.vices).connect()) for _ in range(2)]
        await until(lambda: relay.json()["applications_logging_in"] == 3, "three that wait")
        first.close()
        await until(lambda: relay.json()["applications_logging_in"] == 2, "two that wait")
        cases.same("nobody is authenticated", [it.done() for it in others], [False, False])
        server.go_on()
        cases.same("they share by transactions", await in_turn(relay, *await asyncio.gather(*others), "shared"), "shared")
        cases.same("one login is asked", [len(server.questions_on(process)) for process, _ in server.logins], [len(ASKED)])

    with Server() as server, Relay(program, server.port, "--most", "1", *SHARES) as relay:
        server.held_at = TABLE
        asyncio.run(run())


def of_many_kinds(program, cases):
    """Logins whose servers are asked aren't among the logins that are judged, of which there are few at a time."""
    async def run():
        tasks = []
        for half in (range(KINDS // 2), range(KINDS // 2, KINDS)):
            tasks += [asyncio.ensure_future(Application(relay.port, server.vices, locale=it).connect()) for it in half]
            await until(lambda: all_asked(len(tasks)) or any(it.done() for it in tasks), "a login of each kind")
        cases.same("nobody is refused", relay.json()["total_applications_refused"], 0)
        for it in tasks:
            it.cancel()
        await asyncio.gather(*tasks, return_exceptions=True)

    def all_asked(count):
        asked = [server.questions_on(process) for process, _ in list(server.logins)]
        return len(asked) == count and all((BEHIND, TABLE) in it for it in asked)

    with Server() as server, Relay(program, server.port, *SHARES) as relay:
        server.silent_at = TABLE
        asyncio.run(run())


def questions(program, cases):
    """All of them, some at once."""
    beside(cases, [("tells_all", tells_all, program, cases), ("closes", closes, program, cases),
                   ("waited_for", waited_for, program, cases), ("of_many_kinds", of_many_kinds, program, cases),
                   *((name, is_silent, program, cases, *it) for name, it in SILENT.items()),
                   *((name, tells_little, program, cases, *it) for name, it in LITTLE.items())])
