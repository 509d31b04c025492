"""Scenes of tests/relay_limits: what an operator is told of who holds, who waits, and what for; and who is told an
error where no connection can be opened, or a server is silent.

What is wanted is written by hand.
"""

import datetime
import re
import socket
import struct
import time

from peers import ATTENTION, PATIENCE, batch, connect, login, message, packet
from relay_servers import Before
from relay_told import Relay, error_packet, log_in, rows

NOT_OPENED, REFUSED = 50105, 50100
# What a server at an address did, as the relay says it.
DID = {"gone": "fails with ECONNREFUSED: Connection refused (os error 111)", "silent": "gave no answer in time",
       "refuses": "refuses the login with error 18456"}


def all_of(link):
    """All that comes until the other end closes."""
    link.settimeout(PATIENCE)
    data = b""
    try:
        while more := link.recv(65536):
            data += more
    except OSError as error:
        data += repr(error).encode()
    return data


def port_of(link):
    return link.getsockname()[1]


def socket_of(found, link):
    """What is told of this application, in JSON."""
    return next(it for it in found["sockets"] if it.get("from") == f"127.0.0.1:{port_of(link)}")


def connections(found):
    return [it for it in found["sockets"] if it["kind"] == "connection"]


def until(relay, is_so):
    """What is told once that is so, or after a minute."""
    end = time.monotonic() + PATIENCE
    while not is_so(found := relay.json()) and time.monotonic() < end:
        time.sleep(0.05)
    return found


def lines_of(relay):
    """The page's lines of groups, with `N` for each count of seconds that passed."""
    text = relay.ask("/")[1].decode()
    return [re.sub(r", \d+ s", ", N s", line) for line in text[text.index("\ngroup"):].splitlines() if line]


def holders(program, cases, server):
    """Who holds which connection, who waits, and for how long at most."""
    with Relay(program, server, "--most", "1", "--hold", "500", "--transaction", "400") as relay:
        one, two, three = log_in(relay, "web-1", "billing", "anna"), log_in(relay, "", "billing", "anna"), log_in(relay)
        one.sendall(batch("begin"))
        message(one)
        two.sendall(batch("rows 3 1"))
        found = until(relay, lambda it: it["applications_waiting"] == 1)
        first, second = socket_of(found, one), socket_of(found, two)
        held = next(it for it in connections(found) if it["at"] == "is held")
        cases.same("who holds which connection", (first["holds"], held["held_by"]), (held["number"], first["number"]))
        cases.same("who waits, and what for", (second["waits_for"], second["limit"], "holds" in second),
                   ("a free connection", 120, False))
        cases.same("the limit of who leaves a transaction open", (first["at"], first["limit"]),
                   ("is quiet with a transaction open", 400))
        group = next(it for it in found["groups"] if it["user"] == "anna")
        cases.same("the group, and its wait queue", (group["shared"], group["most"], group["waiting"]),
                   (True, 1, [second["number"]]))
        lines = lines_of(relay)
        cases.check("the page says so", [it for it in lines if not it.startswith("  connection")][:4] == [
            f"group {group['group']}, shared, user anna, application billing, at most 1 connections",
            f"  application {first['number']} is quiet with a transaction open and holds connection {held['number']}"
            f", N s of 400 s (web-1, billing, from 127.0.0.1:{port_of(one)})",
            f"  application {second['number']} waits for a connection to be free, N s of 120 s"
            f" (billing, from 127.0.0.1:{port_of(two)})",
            f"  the wait queue: {second['number']}"], lines)
        of_it = (rf"  connection {held['number']} is held by application {first['number']}, N s "
                 r"\(SPID (5[1-9]|[6-9]\d|\d{3,}), server 0\)")
        cases.check("of the connection, too, and its session's number", any(re.fullmatch(of_it, it) for it in lines), lines)
        half = connect(relay.port)
        half.sendall(login()[:20])
        found = until(relay, lambda it: it["applications_logging_in"] == 1)
        number = socket_of(found, half)["number"]
        cases.same("whose login hasn't come", lines_of(relay)[-2:], [
            "in no group", f"  application {number} logs in, N s of 10 s (from 127.0.0.1:{port_of(half)})"])
        number = socket_of(found, three)["number"]
        cases.check("who has no names", f"  application {number} is quiet, N s (from 127.0.0.1:{port_of(three)})" in lines
                    and any(re.fullmatch(r"group \d, shared, no user, at most 1 connections", it) for it in lines), lines)


def acknowledgements(program, cases, server):
    """What waits for an acknowledgement of the server says so."""
    with Before(server) as before, Relay(program, before.port, "--most", "3", "--cancel", "60") as relay:
        one, two, three = log_in(relay), log_in(relay), log_in(relay)
        for number, link in enumerate((one, two, three)):
            cases.check(f"a row before it {number}", rows(link, number))
        three.sendall(batch("begin"))
        data = message(three)
        descriptor = int.from_bytes(data[data.index(b"\xe3\x0b\x00\x08\x08") + 5:][:8], "little")
        before.is_deaf = True
        one.sendall(batch("rows 1 1") + ATTENTION)
        two.sendall(batch("rows 2 1"))
        # Of the third one's request something goes on, then it takes that back, and asks for a reset but for its
        # transaction.
        long = batch("rows 3 1;" * 300, descriptor)[8:]
        three.sendall(packet(1, long[:4000], 0) + packet(1, long[4000:4400], 0) + packet(1, b"12", 3)
                      + batch("rows 4 1", descriptor, 17))
        until(relay, lambda it: it["applications_asking"] == 1 and it["applications_waiting"] == 1)
        two.close()
        found = until(relay, lambda it: it["connections_draining"] == 1)
        told = [socket_of(found, it) for it in (one, three)]
        numbers = {it["number"] for it in connections(found)}
        cases.same("who waits for an acknowledgement", [(it["at"], it["waits_for"], it["limit"]) for it in told], [
            ("waits for the acknowledgement of its cancel", "an acknowledgement", 60),
            ("waits for the acknowledgement of what it took back", "an acknowledgement", 120)])
        cases.check("they hold their connections", {it["holds"] for it in told} < numbers, found)
        alone = [it for it in connections(found) if "held_by" not in it]
        cases.same("and a connection that nobody holds", [(it["at"], it["waits_for"], it["limit"]) for it in alone],
                   [("waits for the acknowledgement of a cancel", "an acknowledgement", 60)])


def pauses(program, cases, server):
    """Since when a group is paused, who waits for that, and that who asked first is lent a connection first."""
    with Relay(program, server, "--most", "1") as relay:
        holder, *others = [log_in(relay) for _ in range(5)]
        cases.check("a row before a pause", rows(holder, 1))
        group = relay.json()["groups"][0]["group"]
        relay.ask(f"/pause/{group}", "POST")
        for place in (2, 0, 3, 1):
            others[place].sendall(batch(f"rows {place} 1"))
            time.sleep(0.05)
        time.sleep(2.1)
        found = until(relay, lambda it: it["applications_paused"] == 4)
        cases.check("since when it is paused", 2 <= found["groups"][0]["paused_seconds"] <= 90, found["groups"])
        cases.check("who waits for that", found["applications_paused"] == 4 and found["applications_quiet"] == 0
                    and all(socket_of(found, it)["waits_for"] == "its group to go on" for it in others), found)
        lines = lines_of(relay)
        cases.same("the page says so, and who may go on", [re.sub(r"for \d+ s", "for N s", it) for it in lines[:2]], [
            f"group {group}, shared, paused for N s, no user, at most 1 connections",
            "  who holds a connection may go on asking, who holds none isn't read"])
        cases.check("who holds a connection does", rows(holder, 5))
        quiet = log_in(relay)
        found = relay.json()
        cases.same("who has asked nothing waits for nothing", (socket_of(found, quiet)["at"], found["applications_quiet"]),
                   ("is quiet", 1))
        relay.ask(f"/pause/{group}", "POST")
        cases.check("another pause doesn't begin anew", relay.json()["groups"][0]["paused_seconds"] >= 2)
        relay.ask(f"/resume/{group}", "POST")
        found = until(relay, lambda it: len(it["groups"][0]["waiting"]) == 4)
        waiting = [socket_of(found, others[place])["number"] for place in (2, 0, 3, 1)]
        cases.same("who asked first stands first", found["groups"][0]["waiting"], waiting)
        cases.check("it is paused no more", "paused_seconds" not in found["groups"][0], found["groups"])
        holder.close()
        for place in (2, 0, 3, 1):
            cases.check(f"and is served first {place}", struct.pack("<Bi", 0xD1, place) in message(others[place]))
            others[place].close()


def not_opened(program, cases, server):
    """Who waits for a connection that can't be opened is told an error: the server is gone, is silent, or refuses."""
    for what in ("gone", "silent", "refuses"):
        with Before(server) as before, Relay(program, before.port, "--login", "2", "--wait", "8", "--log") as relay:
            one, two = log_in(relay), log_in(relay)
            # The first connection is cleaned first of all, and lent then.
            number = socket_of(until(relay, lambda it: it["connections_free"] == 1), two)["number"]
            cases.check(f"a row before the server {what}", rows(one, 1))
            if what == "gone":
                before.listener.shutdown(socket.SHUT_RDWR)
                before.listener.close()
            elif what == "silent":
                before.send = lambda *_: time.sleep(60)
            else:
                before.ends = error_packet(18456, "no")[8:]
            two.sendall(batch("rows 2 1"))
            if what == "silent":
                found = until(relay, lambda it: it["applications_waiting"] == 1)
                second, opened = socket_of(found, two), next(it for it in connections(found) if it["at"] == "logs in")
                cases.same("who waits for a connection to open", (second["at"], second["waits_for"], second["holds"]),
                           ("waits for its connection to open", "its connection to open", opened["number"]))
                cases.same("the connection says so", (opened["opens_for"], opened["limit"]), (second["number"], 2))
            did = f"127.0.0.1:{before.port} {DID[what]}"
            cases.same(f"an error where the server {what}", all_of(two),
                       error_packet(NOT_OPENED, f"The relay could not open a connection. The server {did}."))
            found = relay.json()
            cases.same(f"counts where the server {what}",
                       [found[f"total_{it}"] for it in ("applications_not_served", "connections_opened", "connections_ended")],
                       [1, 1, 0])
            tries = [found[f"total_{it}"] for it in ("connections_dialed", "limits_login", "servers_failed")]
            cases.check(f"it is dialed again where the server {what}", tries == [2, 0, 0] if what == "refuses" else
                        tries[0] > 2 and tries[2] > 1 and (tries[1] > 0) == (what == "silent"), tries)
            if what != "silent":
                cases.check(f"the holder goes on where the server {what}", rows(one, 3))
            lines = relay.lines()
            refused = [it for it in lines if re.fullmatch(rf"connection \d+ is refused: {re.escape(did)}", it)]
            ended = [it for it in lines if re.fullmatch(rf"socket \d+ has ended: {re.escape(did)}", it)]
            cases.check(f"a line where the server {what}",
                        f"socket {number} waits for a connection that can't be opened: The server {did}." in lines
                        and ((len(refused), len(ended)) == (1, 0) if what == "refuses" else not refused and ended), lines)


def silent(program, cases):
    """A server that says nothing of a login: one error, and one late login for each such server."""
    servers = [socket.create_server(("127.0.0.1", 0)) for _ in range(2)]
    ports = [port_of(it) for it in servers]
    for count in (1, 2):
        with Relay(program, ports[0], "--login", "6", "--wait", "0", others=ports[1:count]) as relay:
            links = [connect(relay.port) for _ in range(3)]
            for link in links:
                link.sendall(login())
            cases.same(f"who waits for {count} silent servers is told one error", [all_of(it) for it in links],
                       [error_packet(REFUSED, f"The server 127.0.0.1:{ports[count - 1]} gave no answer in time.")] * 3)
            found = relay.json()
            cases.same(f"counts of {count} silent servers",
                       [found[f"total_{it}"] for it in ("limits_login", "servers_failed", "connections_dialed",
                                                        "connections_opened", "connections_ended", "applications_refused")],
                       [count, count, count, 0, 0, 3])
    for it in servers:
        it.close()


def log(program, cases, server):
    """Each line of the log, in order: of those who ask over HTTP there is none."""
    with Relay(program, server, "--log") as relay:
        one = log_in(relay, "web-1", "billing", "anna", "sales")
        until(relay, lambda it: it["connections_free"] == 1)
        cases.check("a row for the log", rows(one, 1))
        port = port_of(one)
        one.close()
        until(relay, lambda it: it["connections_free"] == 1)
        status, said = relay.end()
        lines = said.decode().splitlines()
        times = [datetime.datetime.fromisoformat(it.partition(" ")[0].replace("Z", "+00:00")) for it in lines[:-1]]
        cases.check("each line begins with the time", all(abs(time.time() - it.timestamp()) < 600 for it in times), lines)
        whose = f"(user anna, database sales, from 127.0.0.1:{port})"
        cases.same("the log", [it.partition(" ")[2] for it in lines[:-1]] + lines[-1:], [
            f"socket 1 has come (from 127.0.0.1:{port})", f"connection 2 is dialed at 127.0.0.1:{server}",
            "connection 2 is opened", f"application 1 is authenticated, group 0 {whose}",
            f"socket 1 has ended: the other end has closed the connection {whose}",
            "the relay is to end, since its standard input has ended", "ended: applications 0"])
