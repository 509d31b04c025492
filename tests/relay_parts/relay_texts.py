"""Scenes of tests/relay_limits: what the relay says where something is wrong: what, where, and what to do.

What is wanted is written by hand.
"""

import re
import socket
import subprocess

from peers import ATTENTION, batch, connect, login, message, packet
from relay_operator import all_of, until
from relay_servers import DONE, PRELOGIN, Before, ack, routing
from relay_told import Relay, closes, error_packet, log_in, rows

REFUSED = 50100
# Of no machine (RFC 5737).
NOBODYS = "203.0.113.77"
SETTINGS = ("most, alone, total, kinds, least, group, share, stats, log, log-json, judge, login, wait, cancel, idle, life, hold, "
            "transaction, request, drain, check, away, judge-again, half-closed, spin, keepalive, unacknowledged")
FIELDS = ("application, library, library-version, time-zone, user, password, database, language, locale, server, flags, packet-size, "
          "tds-version")


def told_at_login(relay):
    """All that an application is told whose login no server answers."""
    link = connect(relay.port)
    link.sendall(login())
    return all_of(link)


def demands(link):
    """A server that demands encryption (MS-TDS 2.2.6.5)."""
    message(link)
    link.sendall(packet(4, PRELOGIN[:-1] + b"\x03"))


def speaks_http(link):
    message(link)
    link.sendall(b"HTTP/1.1 400 Bad Request\r\n\r\n")


def hangs_up(link):
    message(link)
    link.close()


class Answering(Before):
    """A server that does this with each connection."""

    def __init__(self, does):
        self.does = does
        super().__init__(None)

    def one(self, link):
        self.does(link)


def unreached(program, cases):
    """Why no server authenticates a login: the application is told, and the log has a line with the address."""
    with socket.create_server(("127.0.0.1", 0)) as it:
        port = it.getsockname()[1]
    found = [("a closed port", "fails with ECONNREFUSED: Connection refused (os error 111)", None),
             ("who demands encryption", "demands encryption, and the relay does not encrypt (tdstls client does)", demands),
             ("who speaks something else", "does not answer in packets of TDS (is that a SQL Server's port?)", speaks_http),
             ("who hangs up", "has closed the connection", hangs_up)]
    for what, words, does in found:
        server = Answering(does) if does else None
        at = f"127.0.0.1:{server.port if server else port}"
        with Relay(program, at.rpartition(":")[2], "--log", "--wait", "1") as relay:
            told, lines = told_at_login(relay), relay.lines()
        if server:
            server.stop()
        begun = f"server {at} takes no connection now: ECONNREFUSED: Connection refused (os error 111)"
        cases.check(f"{what}: at the start", (begun in lines) == (what == "a closed port"), lines)
        cases.same(f"{what}: what an application is told", told, error_packet(REFUSED, f"The server {at} {words}."))
        cases.check(f"{what}: the log", {f"connection 2 is dialed at {at}", f"socket 2 has ended: {at} {words}",
                                         f"server {at} {words}", f"application 1 is refused: The server {at} {words}."}
                    <= set(lines), lines)


def sent_on(program, cases):
    """A server that sends a login on to a name that nobody knows, and to the relay itself."""
    for host, why in (("no.such.host.invalid", "the system's resolver knows no such name"),
                      ("127.0.0.1", "that is this relay itself"), ("0.0.0.0", "that is this relay itself")):
        with Before(None, (), b"") as server, Relay(program, server.port, "--log") as relay:
            own = relay.port
            server.ends = routing(host, own) + ack() + DONE
            told, lines = told_at_login(relay), relay.lines()
        named = f"{host}:{own}"
        cases.same(f"what an application is told: {why}", told, error_packet(REFUSED, f"The login is sent on to {named}: {why}."))
        cases.check(f"the log: {why}", f"connection 2 is told another server, {named}" in lines
                    and f"application 1 is refused: The login is sent on to {named}: {why}." in lines, lines)


def refused(program, cases, server):
    """A server that refuses a first login, and a client that demands encryption, have a line each."""
    with Before(server, (), error_packet(18456, "no")[8:]) as before, Relay(program, before.port, "--log") as relay:
        told_at_login(relay)
        link = connect(relay.port)
        link.sendall(packet(0x12, PRELOGIN[:-1] + b"\x03"))
        message(link)
        link.sendall(login())
        all_of(link)
        lines = relay.lines()
        cases.check("a first login that is refused has a line",
                    f"connection 2 is refused: 127.0.0.1:{before.port} refuses the login with error 18456" in lines, lines)
        cases.check("so has a client that demands encryption",
                    "application 3 is refused: This relay does not encrypt, and the client demanded encryption." in lines, lines)


def orders(program, cases, server):
    """What an operator orders over HTTP is in the log; what isn't done is answered with why."""
    with Relay(program, server.port, "--log", "--stats", "0.0.0.0:0") as relay:
        one = log_in(relay)
        cases.check("a row before the orders", rows(one, 1))
        for path, line in (("/pause/0", "group 0 is paused, by POST /pause"), ("/resume/0", "group 0 goes on, by POST /resume"),
                           ("/reload", "the settings are read again, by POST /reload"),
                           ("/kill/0", "group 0 is closed, by POST /kill"), ("/drain", "the relay is to end, by POST /drain")):
            if path == "/kill/0":
                missing = relay.ask("/kill/77", "POST")
                unknown, wrong = relay.ask("/x"), relay.ask("/ " * 3000)
                far = ask_from_afar(relay)
            relay.ask(path, "POST")
        closes(one)
        lines = [it.partition(" ")[2] for it in relay.end()[1].decode().splitlines()]
        for line in ("group 0 is paused, by POST /pause", "group 0 goes on, by POST /resume",
                     "the settings are read again, by POST /reload", "group 0 is closed, by POST /kill",
                     "the relay is to end, by POST /drain"):
            cases.check(f"a line, with who ordered it: {line}", any(
                re.fullmatch(rf"{line} \(from 127\.0\.0\.1:\d+\)", it) for it in lines), lines)
    cases.same("a group that isn't there", missing, (404, b"there is no such group; GET / shows those that are\n"))
    cases.check("a page that isn't there", unknown[0] == 404 and unknown[1].startswith(b"there is no such page; those that are: GET /"), unknown)
    cases.check("no HTTP", wrong[0] == 400 and wrong[1].startswith(b"no request of HTTP/1.1"), wrong)
    cases.check("an order from another machine", far is None
                or far == (403, b"POST is taken from the relay's own machine alone: ask at its 127.0.0.1\n"), far)


def own_address():
    """An address of this machine that isn't 127.0.0.1; None where it has no other."""
    with socket.socket(socket.AF_INET, socket.SOCK_DGRAM) as it:
        try:
            it.connect((NOBODYS, 9))
        except OSError:
            return None
        return it.getsockname()[0]


def ask_from_afar(relay):
    """What is answered to an order that comes from an address which isn't 127.0.0.1; None where this machine has no other."""
    own = own_address()
    return relay.ask("/drain", "POST", own) if own else None


def broken(program, cases, server):
    """Who breaks the rules is closed for a fault, which the log names: an application, a server, a server's packet."""
    with Before(server) as before, Relay(program, before.port, "--log", "--most", "1") as relay:
        one = log_in(relay, user="anna", database="sales")
        port = one.getsockname()[1]
        cases.check("a row before a fault", rows(one, 1))
        before.is_deaf = True
        one.sendall(batch("rows 1 1") + ATTENTION + ATTENTION)
        cases.check("who sends two attentions is closed", closes(one))
        two = log_in(relay)
        before.is_deaf = False
        before.drop()
        cases.check("a row behind that", rows(log_in(relay), 2))
        three = log_in(relay)
        lines = [it.partition(" ")[2] for it in relay.end()[1].decode().splitlines()]
        cases.check("an application's fault is named, and whose it is",
                    any(re.fullmatch(r"application \d+ breaks the rules: fault 10 of an application, SecondAttention"
                                     rf" \(user anna, database sales, from 127\.0\.0\.1:{port}\)", it)
                        for it in lines), lines)
        del two, three
    # What begins as no token does, and a packet whose Length is 4.
    wrong = b"\x01" + DONE
    for what, data, line in (("a server's", None, r"fault 2 of a server, Wire\(Refusal \{ fault: UnknownToken, byte: 1, at: 0 \}\)"),
                             ("a packet's", bytes([4, 1, 0, 4, 0, 0, 1, 0]), "fault 3 of a packet, ShortLength")):
        with Before(server) as before, Relay(program, before.port, "--log", "--most", "1") as relay:
            before.answers = "rows 98", wrong
            if data:
                before.send = lambda link, said, data=data: link.sendall(data) if said == wrong else Before.send(before, link, said)
            one = log_in(relay)
            cases.check(f"a row before {what} fault", rows(one, 1))
            one.sendall(batch("rows 98 1"))
            cases.check(f"{what} fault closes", closes(one))
            lines = relay.lines()
            cases.check(f"{what} fault is named", any(re.fullmatch(rf"connection \d+ breaks the rules: {line}", it)
                                                     for it in lines), lines)


def beginnings(program, cases, room):
    """What keeps it from serving."""
    path = f"{room}/begins.toml"
    with open(path, "w", encoding="ascii") as file:
        file.write("most = 8\nlief = 5\n")
    fields = f"{room}/fields.toml"
    with open(fields, "w", encoding="ascii") as file:
        file.write("most = 8\ngroup = \"application,usr\"\n")
    with socket.create_server(("127.0.0.1", 0)) as taken:
        port = taken.getsockname()[1]
        names = "isn't an IP address, a colon and a port, as 127.0.0.1:1433 (`getent ahosts NAME` says an address)"
        nearest = ", ".join(["life", *(it for it in SETTINGS.split(", ") if it != "life")])
        users = ", ".join(["user", *(it for it in FIELDS.split(", ") if it != "user")])
        for words, status, told in (
                (["--wait", "x"], 2, '--wait takes seconds, 0 to 604800, and not "x"'),
                (["--alone", "4097"], 2, '--alone takes 0 to 4096 connections, and not "4097"'),
                (["--most", "0"], 2, '--most takes 1 to 1024 connections, and not "0"'),
                (["--group", "user, aplication"], 2, f'--group: there is no field "aplication" of a login; those that are: {FIELDS}'),
                (["--share", "statement"], 2, '--share takes session or transaction, and not "statement"'),
                (["--spin", "1001"], 2, '--spin takes 0 to 1000 microseconds, and not "1001"'),
                ([f"127.0.0.1:{it}" for it in range(1, 9)], 2, "there are more than 8 servers: leave some out"),
                (["sql.example:1433"], 2, 'SERVER "sql.example" is a name: --names unix:PATH says where `tdstls names` answers (docs/RELAY.md)'),
                (["--stats", "here"], 2, f'--stats "here" {names}'),
                (["--config", path], 2, f"{path}:2:1: lief: there is no such setting; those that are: {nearest}"),
                (["--config", fields], 2, f'{fields}:2:1: group: there is no field "usr" of a login; those that are: {users}'),
                (["--config", f"{path}x"], 2, f"{path}x (--config): ENOENT: No such file or directory (os error 2)"),
                (["--stats", f"127.0.0.1:{port}"], 1,
                 f"127.0.0.1:{port}: another program listens there (EADDRINUSE); `ss -ltnp` shows which, and port 0 is one that is free"),
                (["--stats", f"{NOBODYS}:0"], 1,
                 f"{NOBODYS}:0: this machine has no such address (EADDRNOTAVAIL); `ip address` shows those that it has, and 0.0.0.0 is all of them"),
                (["--until-input-ends"], 2,
                 "--until-input-ends wants a pipe as standard input: EPERM: Operation not permitted (os error 1)")):
            cases.same(f"it can't begin: {words[-1]}", began(program, room, "127.0.0.1:0", "127.0.0.1:1", *words), (status, f"error: {told}\n"))
        itself = "is where this relay itself listens: give the address of the server behind it"
        for listen, at in (("127.0.0.1", "127.0.0.1"), ("0.0.0.0", "127.0.0.1"), ("0.0.0.0", "0.0.0.0"), ("127.0.0.1", "0.0.0.0"),
                           ("[::1]", "[::]"), ("[::]", "[::]"), ("[::]", "127.0.0.1"), ("127.0.0.1", "[::ffff:127.0.0.1]")):
            cases.same(f"the relay itself as its server, {listen}, {at}", began(program, room, f"{listen}:{port}", f"{at}:{port}"),
                       (2, f"error: SERVER {at}:{port} {itself}\n"))
        cases.same("what another program has", began(program, room, f"127.0.0.1:{port}", "127.0.0.1:1")[0], 1)
    found_out(program, cases)


def found_out(program, cases):
    """A relay at all addresses of this machine, before one of them: it isn't its own server."""
    if not (own := own_address()):
        return
    with socket.create_server(("127.0.0.1", 0)) as it:
        port = it.getsockname()[1]
    with subprocess.Popen([program, f"0.0.0.0:{port}", f"{own}:{port}", "--until-input-ends"], stdin=subprocess.PIPE,
                          stderr=subprocess.PIPE) as child:
        child.stderr.readline()
        link = connect(port)
        link.sendall(login())
        cases.same("a relay finds out that it is its own server", all_of(link), error_packet(
            REFUSED, f"The server {own}:{port} is this relay itself."))
        child.stdin.close()
        child.stderr.close()


def began(program, room, *words):
    """The status, and what is said on standard error. Standard input is a file."""
    with open(f"{room}/empty", "w+", encoding="ascii") as file:
        done = subprocess.run([program, *words], stdin=file, stderr=subprocess.PIPE, check=False)
    return done.returncode, done.stderr.decode()
