"""Scenes of tests/relay_limits: what is told where nothing is asked, passwords that are judged again, a first request, and
who has shut his sending side.

What is wanted is written by hand.
"""

import select
import socket
import struct
import threading
import time

from peers import ATTENTION, batch, message
from relay_operator import all_of, until
from relay_servers import Before, until_some
from relay_told import Relay, closes, error_packet, log_in, rows

LATE_HOLD, LATE_TRANSACTION, LOST = 50102, 50104, 50109


def is_silent(link):
    """Whether nothing has come, and the other end is there."""
    return not select.select([link], [], [], 0.3)[0]


def asks_late(link, pieces=1):
    """Asks in so many pieces, and gives all that comes until the other end closes."""
    asked = batch("rows 9 1")
    for at in range(pieces):
        link.sendall(asked[len(asked) * at // pieces:len(asked) * (at + 1) // pieces])
        if at + 1 < pieces and not is_silent(link):
            return b"early"
    return all_of(link)


def unasked(program, cases, server):
    """Nothing is told where nothing is asked: an error answers the next request, behind its end."""
    with Relay(program, server.port, "--hold", "1") as relay:
        one, two = log_in(relay), log_in(relay)
        cases.check("rows before a hold", rows(one, 1) and rows(two, 2))
        found = until(relay, lambda it: it["total_limits_hold"] == 2)
        cases.same("both hold too long", found["total_limits_hold"], 2)
        cases.check("nothing is said unasked of a hold", is_silent(one) and is_silent(two))
        ats = {it["at"] for it in found["sockets"] if it["kind"] == "application"}
        cases.same("where they are", ats, {"is told at its next request why it has no connection any more"})
        cases.check("the page has them", "in no group" in relay.ask("/")[1].decode())
        cases.same("their connections are free", until(relay, lambda it: it["connections_free"] == 2)["connections_free"], 2)
        wanted = error_packet(LATE_HOLD, "The relay closes who holds a connection for long and asks nothing (--hold).")
        cases.same("the next request is answered", asks_late(one), wanted)
        cases.same("in pieces behind its end", asks_late(two, 3), wanted)
    with Relay(program, server.port, "--transaction", "1") as relay:
        one = log_in(relay)
        one.sendall(batch("begin"))
        message(one)
        until(relay, lambda it: it["total_limits_transaction"] == 1)
        cases.check("nothing is said unasked of a transaction", is_silent(one))
        cases.same("of a transaction", asks_late(one), error_packet(
            LATE_TRANSACTION, "The relay closes who leaves a transaction open for long and asks nothing (--transaction)."))
    with Before(server) as before, Relay(program, before.port) as relay:
        one = log_in(relay)
        cases.check("a row before a connection ends", rows(one, 1))
        before.drop()
        until(relay, lambda it: it["total_connections_ended"] == 1)
        cases.check("nothing is said unasked of a connection", is_silent(one))
        cases.same("of a connection", asks_late(one), error_packet(
            LOST, f"The server 127.0.0.1:{before.port} has closed the connection."))
    with Relay(program, server.port) as relay:
        quiet, one = log_in(relay), log_in(relay)
        cases.check("a row before a drain", rows(one, 1))
        relay.ask("/drain", "POST")
        cases.same("who asks nothing is just closed at the end", (all_of(quiet), all_of(one)), (b"", b""))


def authenticated_again(program, cases, server):
    """A password that is changed: the group takes nobody new, and closes as its connections come back."""
    with Before(server) as before, Relay(program, before.port, "--judge-again", "1", "--log") as relay:
        one, two = log_in(relay, user="anna"), log_in(relay, user="anna")
        cases.check("rows before a judgement", rows(one, 1) and rows(two, 2))
        until_some(lambda: len(before.logins) >= 4)
        cases.check("it is judged again and again", len(before.logins) >= 4, len(before.logins))
        cases.check("by the same login", len(set(before.logins)) == 1)
        found = relay.json()
        cases.same("that is nobody's connection", (found["total_connections_opened"], found["connections_held"]), (2, 2))
        two.close()
        until(relay, lambda it: it["connections_free"] == 1)
        before.ends = error_packet(18456, "no")[8:]
        found = until(relay, lambda it: it["connections_free"] == 0)
        cases.same("what is free is closed", (found["connections_free"], found["connections_held"]), (0, 1))
        cases.check("who holds one goes on", rows(one, 3))
        late = log_in(relay, user="anna")
        cases.same("a new one is authenticated itself", relay.json()["total_applications_refused"], 1)
        late.close()
        one.close()
        found = until(relay, lambda it: it["connections_free"] + it["connections_held"] + it["connections_cleaning"] == 0)
        cases.same("and the last one goes as it comes back", (found["connections_held"], found["groups_shared"]), (0, 0))
        lines = relay.lines()
        cases.check("a line says who isn't authenticated", any(
            it.endswith(f"is refused: 127.0.0.1:{before.port} refuses the login with error 18456") for it in lines), lines)
        cases.check("and one why connections are closed", any(
            it.endswith("is closed, since its login isn't authenticated any more (--judge-again)") for it in lines), lines)
    with Relay(program, server.port, "--kinds", "2") as relay:
        kept = [log_in(relay, program=it) for it in "ab"]
        cases.check("two kinds", all(rows(it, 1) for it in kept))
        third = log_in(relay, program="c")
        cases.same("a third kind is refused", relay.json()["total_applications_refused"], 1)
        third.close()


class Slow(Before):
    """A server that takes nothing behind a login before it may."""

    def __init__(self, server):
        self.may = threading.Event()
        super().__init__(server)

    def pump(self, near, far):
        self.may.wait()
        super().pump(near, far)


def first_request(program, cases, server):
    """A group's first request waits for the cleaning of the connection that its login opened, and dials no second one."""
    with Slow(server) as slow, Relay(program, slow.port) as relay:
        one, two = log_in(relay), log_in(relay)
        for number, it in enumerate((one, two)):
            it.sendall(batch(f"rows {number} 1"))
        found = until(relay, lambda it: it["applications_waiting"] == 2)
        cases.same("they wait", found["applications_waiting"], 2)
        time.sleep(0.5)
        cases.same("for the first connection", relay.json()["total_connections_dialed"], 1)
        slow.may.set()
        cases.check("rows behind its cleaning", all(
            struct.pack("<Bi", 0xD1, number) in message(it) for number, it in enumerate((one, two))))
        cases.same("the second one has one of its own", relay.json()["total_connections_dialed"], 2)
    with Slow(server) as slow, Relay(program, slow.port, "--cancel", "1") as relay:
        one = log_in(relay)
        one.sendall(batch("rows 5 1"))
        until(relay, lambda it: it["total_limits_cancel"] == 1)
        slow.may.set()
        cases.check("where it isn't cleaned, another one is dialed", struct.pack("<Bi", 0xD1, 5) in message(one))


def waits_once(program, cases, server):
    """Who waits for another one's connection, and then for one that can't be opened, waits within one limit."""
    with Before(server) as before, Relay(program, before.port, "--most", "1", "--wait", "10") as relay:
        one, two = log_in(relay), log_in(relay)
        cases.check("a row before a wait", rows(one, 1))
        begun = time.monotonic()
        two.sendall(batch("rows 2 1"))
        time.sleep(8)
        before.stop()
        all_of(two)
        took = time.monotonic() - begun
        cases.check("one wait has one limit", 9.9 < took < 16, took)


def half_closed(program, cases, server):
    """Who has shut his sending side leaves at once, or has so many seconds for his answer."""
    with Before(server) as before:
        for seconds, least, most in ((0, 0, 20), (2, 2, 20)):
            with Relay(program, before.port, "--half-closed", str(seconds)) as relay:
                one = log_in(relay)
                cases.check(f"a row before an end, {seconds}", rows(one, 1))
                before.is_deaf = True
                one.sendall(batch("rows 2 1"))
                until(relay, lambda it: it["applications_asking"] == 1)
                begun = time.monotonic()
                one.shutdown(socket.SHUT_WR)
                cases.check(f"it is closed, {seconds}", closes(one))
                took = time.monotonic() - begun
                cases.check(f"in time, {seconds}", least <= took < most, took)
                cancels = until_some(lambda: [it for it in dict(before.said).values() if it.endswith(ATTENTION)])
                cases.same(f"its request is cancelled, {seconds}", len(cancels), 1)
                before.said.clear()
                before.is_deaf = False
                before.drop()
    with Relay(program, server.port, "--half-closed", "55") as relay:
        one, two = log_in(relay), log_in(relay)
        one.sendall(batch("rows 3 1"))
        one.shutdown(socket.SHUT_WR)
        begun = time.monotonic()
        told = all_of(one)
        cases.check("who may wait gets its answer", struct.pack("<Bi", 0xD1, 3) in told, told)
        cases.check("and is closed behind it", time.monotonic() - begun < 50)
        begun = time.monotonic()
        two.shutdown(socket.SHUT_WR)
        cases.same("who asks nothing is closed at once", all_of(two), b"")
        cases.check("and doesn't wait", time.monotonic() - begun < 50)
