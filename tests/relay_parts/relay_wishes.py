"""Scenes of tests/relay_limits: what an operator may wish: a log as JSON, limits of requests, connections that stay,
groups by fewer names, and figures for which nobody waits.

What is wanted is written by hand.
"""

import datetime
import json
import selectors
import socket
import struct
import time

from peers import PATIENCE, PROXY_HEADER, batch, connect, login, message, packet
from relay_logins import with_features
from relay_operator import all_of, until
from relay_servers import DONE, Before, until_some
from relay_told import Relay, error_in, error_of, error_packet, log_in, login_of, rows

LATE, LOST = 50108, 50109


def json_log(program, cases, server):
    """Each line of the log is an object of JSON, with whose it is."""
    with Relay(program, server, "--log-json") as relay:
        one = log_in(relay, "web-1", "billing", "anna", "sales")
        until(relay, lambda it: it["connections_free"] == 1)
        port = one.getsockname()[1]
        one.close()
        until(relay, lambda it: it["connections_free"] == 1 and it["applications_quiet"] == 0)
        lines = [json.loads(it) for it in relay.end()[1].decode().splitlines()]
        times = [datetime.datetime.fromisoformat(it.pop("time").replace("Z", "+00:00")) for it in lines[:-1]]
        cases.check("each object has the time", all(abs(time.time() - it.timestamp()) < 600 for it in times), times)
        at = {"from": f"127.0.0.1:{port}"}
        whose = {"user": "anna", "database": "sales", **at}
        cases.same("the log as JSON", lines, [
            {"text": "socket 1 has come", **at}, {"text": f"connection 2 is dialed at 127.0.0.1:{server}"},
            {"text": "connection 2 is opened"}, {"text": "application 1 is authenticated, group 0", **whose},
            {"text": "socket 1 has ended: the other end has closed the connection", **whose},
            {"text": "the relay is to end, since its standard input has ended"}, {"text": "ended: applications 0"}])


def named_groups(program, cases, server):
    """A group is told by the user, the database and the application that its login names."""
    with Relay(program, server) as relay:
        one = log_in(relay, "web-1", "billing", "anna", "sales")
        found = relay.json()["groups"][0]
        cases.same("a group's names", [found[it] for it in ("user", "database", "program")], ["anna", "sales", "billing"])
        cases.check("the page says them", "\ngroup 0, shared, user anna, database sales, application billing, at most 16"
                    in relay.ask("/")[1].decode())
        one.close()


def requests(program, cases, server):
    """A request that runs too long is cancelled, and its application told, where nothing of the answer has come."""
    with Before(server) as before, Relay(program, before.port, "--request", "6", "--log") as relay:
        one, two = log_in(relay), log_in(relay)
        cases.check("rows before a long request", rows(one, 1) and rows(two, 2))
        before.is_deaf = True
        one.sendall(batch("rows 3 1"))
        two.sendall(batch("rows 4 1"))
        found = until(relay, lambda it: it["applications_asking"] == 2)
        limits = {it["limit"] for it in found["sockets"] if it["at"] == "has a request underway"}
        cases.same("the limit is told", limits, {6})
        # The first token of an answer, DONE with more behind it, in a packet that isn't the last one.
        before.link_of("rows 4 1").sendall(packet(4, b"\xfd\x01\x00" + bytes(10), 0))
        cases.same("who asks for long is told", all_of(one), error_packet(
            LATE, "The relay cancels a request that runs too long (--request)."))
        told = all_of(two)
        cases.check("within an answer nothing is told", len(told) == 8 + 13 and error_in(told) is None, told)
        cases.same("both are counted", relay.json()["total_limits_request"], 2)
        cancels = lambda: [it for it in dict(before.said).values() if it.endswith(packet(6, b""))]
        until_some(lambda: len(cancels()) == 2)
        cases.same("the server is sent a cancel of each", len(cancels()), 2)
        before.is_deaf = False
        lines = relay.lines()
        cases.check("a line says so", any(it.endswith("has a request that runs too long (--request)") for it in lines), lines)


def follows(program, cases, server, room):
    """The most connections of a living group follow the settings: none is closed, and none is opened above them."""
    path = f"{room}/follows.toml"

    def may_be(most):
        with open(path, "w", encoding="ascii") as file:
            file.write(f"most = {most}\n")

    may_be(1)
    with Relay(program, server, "--config", path) as relay:
        one, two, three, four = [log_in(relay) for _ in range(4)]
        cases.check("a row at one connection", rows(one, 1))
        for number, it in enumerate((two, three, four)):
            it.sendall(batch(f"rows {number} 1"))
        found = until(relay, lambda it: it["applications_waiting"] == 3)
        cases.same("others wait", (found["applications_waiting"], found["connections_held"]), (3, 1))
        may_be(2)
        cases.same("the settings are read again", relay.ask("/reload", "POST"), (200, b"read again\n"))
        cases.check("the first of them is served", struct.pack("<Bi", 0xD1, 0) in message(two))
        found = relay.json()
        cases.same("and nobody else", (found["applications_waiting"], found["total_connections_opened"], found["groups"][0]["most"]), (2, 2, 2))
        may_be(1)
        relay.ask("/reload", "POST")
        found = relay.json()
        cases.same("fewer close none", (found["connections_held"], found["total_connections_ended"], found["groups"][0]["most"]), (2, 0, 1))
        cases.check("who holds one goes on", rows(one, 5) and rows(two, 6))
        two.close()
        cases.check("what is free is lent", struct.pack("<Bi", 0xD1, 1) in message(three))
        relay.ask("/kill/0", "POST")
        links = [log_in(relay) for _ in range(2)]
        cases.check("a row of a later group", rows(links[0], 7))
        links[1].sendall(batch("rows 8 1"))
        found = until(relay, lambda it: it["applications_waiting"] == 1)
        cases.same("which has one", (found["applications_waiting"], found["connections_held"]), (1, 1))


def kept(program, cases, server):
    """Connections that stay however idle they are."""
    with Relay(program, server, "--idle", "1", "--least", "1") as relay:
        links = [log_in(relay) for _ in range(3)]
        cases.check("rows of three", all(rows(it, number) for number, it in enumerate(links)))
        cases.same("each has a connection", relay.json()["connections_held"], 3)
        for it in links:
            it.close()
        found = until(relay, lambda it: it["total_limits_idle"] == 2)
        time.sleep(2.5)
        found = relay.json()
        cases.same("one stays", (found["total_limits_idle"], found["connections_free"]), (2, 1))


def recovered(program, cases, server):
    """Session recovery is asked for where the application asks, with nothing to be recovered, and the setting says so: a
    group of its own. Its server doesn't acknowledge it, so it shares by sessions, as is told."""
    asks, bare = with_features((1, b"")), login()
    for words, told in (((), [bare]), (("--share", "transaction"), [bare, asks]), (("--share", "session"), [bare])):
        with Before(server) as before, Relay(program, before.port, "--most", "1", "--wait", "1", *words) as relay:
            links = []
            for it in (bare, asks, with_features((4, b"\1"), (1, b"")), with_features((1, bytes(8))), with_features((4, b"\1"))):
                links.append(connect(relay.port))
                links[-1].sendall(it)
                message(links[-1])
            cases.same(f"what the server is told {words}", [it.hex() for it in before.logins], [it[8:].hex() for it in told])
            found = [it.get("shares_by_sessions") for it in relay.json()["groups"]]
            cases.same(f"groups {words}", found, ["session recovery" if it == asks else None for it in told])
            cases.check(f"a row {words}", rows(links[1], 1))
            links[2].sendall(batch("rows 2 1"))
            cases.check(f"who waits isn't lent it {words}", error_of(links[2]) == 50101)
            cases.check(f"the holder goes on {words}", rows(links[1], 3))


def lost(program, cases, server):
    """A server ends connections: who asks there and has nothing of the answer is told, who asks nothing at its next request."""
    with Before(server) as before, Relay(program, before.port) as relay:
        one, two, three = log_in(relay), log_in(relay), log_in(relay)
        cases.check("rows before a connection's end", all(rows(it, number) for number, it in enumerate((one, two, three))))
        before.is_deaf = True
        one.sendall(batch("rows 3 1"))
        two.sendall(batch("rows 4 1"))
        until(relay, lambda it: it["applications_asking"] == 2)
        # DONE with more behind it, in a packet that isn't the last one.
        before.link_of("rows 4 1").sendall(packet(4, b"\xfd\x01\x00" + bytes(10), 0))
        begun = two.recv(8 + 13, socket.MSG_WAITALL)
        before.drop()
        cases.same("who asks is told", all_of(one), error_packet(
            LOST, f"The server 127.0.0.1:{before.port} has closed the connection."))
        cases.same("who is within an answer isn't", (len(begun), all_of(two)), (21, b""))
        three.sendall(batch("rows 5 1"))
        cases.same("who asks nothing is told at its next request", all_of(three), error_packet(
            LOST, f"The server 127.0.0.1:{before.port} has closed the connection."))


def pieces(program, cases, server):
    """Who asks for JSON holds nobody up: an application has its answer meanwhile."""
    with Relay(program, server, "--login", "0") as relay:
        one = log_in(relay)
        cases.check("a row before JSON", rows(one, 1))
        crowd = [connect(relay.port) for _ in range(3000)]
        until(relay, lambda it: it["applications_logging_in"] == 3000)
        first = 0
        # The server may be slower with a row than the relay with all of JSON: so some are tried.
        for number in range(60):
            if first and number >= 8:
                break
            with socket.create_connection(("127.0.0.1", relay.stats), PATIENCE) as link:
                # The relay has taken it in before it is whole, so that the request comes behind it.
                link.sendall(f"GET /json HTTP/1.1\r\nHost: 127.0.0.1:{relay.stats}\r\n".encode())
                time.sleep(0.05)
                link.sendall(b"\r\n")
                one.sendall(batch(f"rows {number} 1"))
                with selectors.DefaultSelector() as both:
                    for it in (one, link):
                        both.register(it, selectors.EVENT_READ)
                    first += [it.fileobj for it, _ in both.select(PATIENCE)] == [one]
                cases.check(f"the row comes {number}", struct.pack("<Bi", 0xD1, number) in message(one))
                got = b""
                while more := link.recv(65536):
                    got += more
                found = json.loads(got.partition(b"\r\n\r\n")[2])
                cases.check(f"all are told {number}", len(found["sockets"]) >= 3002, len(found["sockets"]))
        cases.check("the row comes before", first > 0, first)
        for it in crowd:
            it.close()


def proxied(program, cases, server):
    """Who comes by a proxy is told by the address of the client behind it, however the header is cut."""
    with Relay(program, server, "--proxy", "127.0.0.1", "--log-json") as relay:
        link = connect(relay.port)
        for piece in (PROXY_HEADER[:5], PROXY_HEADER[5:20], PROXY_HEADER[20:] + login_of("web-1", "billing", "anna", "sales")[:3]):
            link.sendall(piece)
            time.sleep(0.02)
        link.sendall(login_of("web-1", "billing", "anna", "sales")[3:])
        message(link)
        cases.check("a row behind a proxy", rows(link, 1))
        cases.check("its address is the client's", "192.0.2.7:50000" in relay.ask("/json")[1].decode())
        other = connect(relay.port)
        other.sendall(login_of("web-1"))
        cases.same("a proxy without a header is closed", all_of(other), b"")
        link.close()
        said = [json.loads(it) for it in relay.end()[1].decode().splitlines()]
        cases.check("the log has the client's address", any(
            it.get("from") == "192.0.2.7:50000" and "is authenticated" in it["text"] for it in said), said)
        cases.check("and why the other one was closed", any("no header of the PROXY protocol" in it["text"] for it in said), said)
    with Relay(program, server) as relay:
        link = connect(relay.port)
        link.sendall(PROXY_HEADER + login_of("web-1"))
        cases.same("a header that isn't due is no login", all_of(link), b"")
    authenticated_of_clients(program, cases)


def authenticated_of_clients(program, cases):
    """Behind a proxy what is authenticated is counted by the client's address, and not by the proxy's."""
    with socket.create_server(("127.0.0.1", 0)) as silent, Relay(
            program, silent.getsockname()[1], "--login", "60", "--proxy", "127.0.0.1") as relay:
        links = [behind_proxy(relay, PROXY_HEADER, f"user{number}") for number in range(33)]
        cases.same("what is authenticated of one client has a limit", all_of(links[-1]), error_packet(
            50100, "The relay has as many logins of this address authenticated as it does at a time, 32."))
        # 192.0.2.8 in the place of 192.0.2.7.
        links.append(behind_proxy(relay, PROXY_HEADER.replace(bytes([192, 0, 2, 7]), bytes([192, 0, 2, 8])), "other"))
        found = until(relay, lambda it: it["total_connections_dialed"] == 33)
        cases.same("another one of the proxy isn't kept out", (found["total_connections_dialed"], found["total_applications_refused"]), (33, 1))


def behind_proxy(relay, header, user):
    """An application of this user that logs in behind this header."""
    link = connect(relay.port)
    link.sendall(header + login_of(user=user))
    return link
