"""Scenes of tests/relay_limits: who vanishes, who may give orders, and a log that nobody reads.

What is wanted is written by hand.
"""

import contextlib
import os
import signal
import socket
import stat
import struct
import subprocess
import time

from peers import PATIENCE, batch, connect, login, message, packet
from relay_operator import all_of, until
from relay_servers import Before
from relay_told import Relay, bare, error_in, error_of, error_packet, log_in, login_of, rows

TOO_MANY, LOST = 50106, 50109
# What a browser says of a page that it has loaded from elsewhere, and what an order wants.
ORIGIN, SITE, MEANT = "Origin: http://evil.example", "Sec-Fetch-Site: cross-site", "X-Tdsrelay: 1"


def orders_of_pages(program, cases, server):
    """No page of a browser can give an order, or read what the relay tells under a name of its owner's."""
    with Relay(program, server) as relay:
        one = log_in(relay)
        cases.check("a row before a page's orders", rows(one, 1))
        here = f"Host: 127.0.0.1:{relay.stats}"
        for what, fields in (("no field of the relay's own", [here]), ("an Origin", [here, MEANT, ORIGIN]),
                             ("a site", [here, MEANT, SITE]), ("another value", [here, "X-Tdsrelay: 10"]),
                             ("small letters", [here, MEANT, ORIGIN.lower()])):
            cases.same(f"an order with {what}", relay.ask("/kill/0", "POST", fields=fields)[0], 403)
        for what, fields in (("a name", [f"Host: evil.example:{relay.stats}"]), ("no Host", []),
                             ("no port", ["Host: 127.0.0.1"]), ("another port", [f"Host: 127.0.0.1:{relay.stats ^ 1}"]),
                             ("two of them", [here, "Host: evil.example"])):
            for path, method in (("/json", "GET"), ("/drain", "POST")):
                cases.same(f"{path} of {what}", relay.ask(path, method, fields=[*fields, MEANT])[0], 403)
        cases.same("by its own name", relay.ask("/", fields=[f"Host: localhost:{relay.stats}"])[0], 200)
        cases.check("nobody is closed", rows(one, 2))
        cases.same("who means the relay", relay.ask("/kill/0", "POST", fields=[here, MEANT])[0], 200)


def unix_place(program, cases, server, room):
    """It tells at a Unix socket of its owner's alone, which it removes at its end."""
    path = f"{room}/stats"
    with subprocess.Popen([program, "127.0.0.1:0", f"127.0.0.1:{server}", "--stats", f"unix:{path}", "--until-input-ends"],
                          stdin=subprocess.PIPE, stderr=subprocess.PIPE, preexec_fn=lambda: os.umask(0)) as child:
        said = [child.stderr.readline().decode() for _ in range(2)]
        cases.same("where it tells", said[0], f"telling at unix:{path}\n")
        mode = os.stat(path).st_mode
        cases.check("its owner alone may ask", stat.S_ISSOCK(mode) and stat.S_IMODE(mode) == 0o600, oct(mode))
        for method, name, status in (("GET", "json", b"200"), ("POST", "reload", b"200"), ("POST", "kill/7", b"404")):
            with socket.socket(socket.AF_UNIX) as link:
                link.settimeout(PATIENCE)
                link.connect(path)
                link.sendall(f"{method} /{name} HTTP/1.1\r\n\r\n".encode())
                cases.same(f"{method} /{name} there", link.recv(65536).split()[1], status)
        again = subprocess.run([program, "127.0.0.1:0", f"127.0.0.1:{server}", "--stats", f"unix:{path}"],
                               stderr=subprocess.PIPE, check=False)
        cases.same("another relay can't tell there", (again.returncode, again.stderr.decode()),
                   (1, f"error: unix:{path}: another program listens at this socket, or what stands there is no socket;"
                       " take another path\n"))
        child.stdin.close()
        cases.same("it ends in order", (child.wait(PATIENCE), os.path.exists(path)), (0, False))
        child.stderr.close()


def unread(program, cases, server):
    """Nobody reads the log: the relay goes on, and says then how many lines it has left out."""
    with Relay(program, server, "--log") as relay:
        one = log_in(relay)
        for _ in range(4000):
            connect(relay.port).close()
        one.settimeout(120)
        cases.check("a row while nobody reads the log", rows(one, 1))
        found = until(relay, lambda it: it["total_log_lines_left_out"] > 0)
        cases.check("lines that are left out are counted", found["total_log_lines_left_out"] > 0, found)
        said = b""
        os.set_blocking(relay.child.stderr.fileno(), False)
        end = time.monotonic() + PATIENCE
        while time.monotonic() < end and b"left out here" not in said[-5000:]:
            connect(relay.port).close()
            time.sleep(0.05)
            said += relay.child.stderr.read() or b""
        lines = [bare(it) for it in said.decode().splitlines()]
        told = [it for it in lines if it.endswith(" lines are left out here, since nobody has read the log in time")]
        found = relay.json()
        cases.same("it says how many, once it is read", sum(int(it.split()[0]) for it in told), found["total_log_lines_left_out"])
        os.set_blocking(relay.child.stderr.fileno(), True)
        cases.check("a row behind that", rows(one, 2))


def unlet(program, cases, server):
    """A first login that the server refuses: who it was, and why, and it is counted."""
    with Before(server, (), error_packet(18456, "no")[8:]) as before, Relay(program, before.port, "--log") as relay:
        link = log_in(relay, "web-1", "billing", "anna", "sales")
        port = link.getsockname()[1]
        cases.same("a login that the server refuses is counted", relay.json()["total_applications_refused"], 1)
        lines = [it.partition(" ")[2] for it in relay.end()[1].decode().splitlines()]
        cases.check("it has a line, with who it was", "application 1 is refused: the server refuses the login with error 18456"
                    f" (user anna, database sales, from 127.0.0.1:{port})" in lines, lines)


# Its own, so that another run beside this one has others.
NEAR, FAR = (f"10.213.{os.getpid() % 256}.{it}" for it in (1, 2))


@contextlib.contextmanager
def far_host():
    """Another host, which is a network namespace: how a program is run there, and how it vanishes. None where this user
    can't make one."""
    name = f"relay{os.getpid() % 100000}"
    inside = ["ip", "netns", "exec", name]
    steps = [["ip", "netns", "add", name], ["ip", "link", "add", f"{name}a", "type", "veth", "peer", "name", f"{name}b"],
             ["ip", "link", "set", f"{name}b", "netns", name], ["ip", "addr", "add", f"{NEAR}/30", "dev", f"{name}a"],
             ["ip", "link", "set", f"{name}a", "up"], [*inside, "ip", "addr", "add", f"{FAR}/30", "dev", f"{name}b"],
             [*inside, "ip", "link", "set", f"{name}b", "up"]]
    try:
        if all(subprocess.run(it, stdout=subprocess.DEVNULL, stderr=subprocess.DEVNULL, check=False).returncode == 0 for it in steps):
            yield inside, lambda: subprocess.run([*inside, "ip", "link", "set", f"{name}b", "down"], check=True)
        else:
            yield None
    finally:
        for it in (["ip", "link", "del", f"{name}a"], ["ip", "netns", "del", name]):
            subprocess.run(it, stderr=subprocess.DEVNULL, check=False)


@contextlib.contextmanager
def killed(child):
    """A program that is ended whatever happens."""
    try:
        yield
    finally:
        child.kill()


# An application on another host: it logs in, sends a batch, says so, and sends it so often again.
# It reads nothing more.
APPLICATION = """
import socket, sys, time
link = socket.socket()
link.setsockopt(socket.SOL_SOCKET, socket.SO_RCVBUF, 4096)
link.connect((sys.argv[1], int(sys.argv[2])))
link.sendall(bytes.fromhex(sys.argv[3]))
link.recv(65536)
link.sendall(bytes.fromhex(sys.argv[4]))
link.recv(100)
print("there", flush=True)
link.sendall(bytes.fromhex(sys.argv[4]) * int(sys.argv[5]))
time.sleep(600)
"""


def vanished(program, cases, server):
    """An application's host vanishes: its connection is another one's within the limit."""
    for what, words, times in (("is quiet", ("--keepalive", "2"), 0),
                               ("reads no answer", ("--unacknowledged", "3", "--keepalive", "0"), 2000)):
        with far_host() as made:
            if not made:
                return
            inside, vanish = made
            with Relay(program, server, "--most", "1", "--wait", "60", *words, listen="0.0.0.0") as relay, subprocess.Popen(
                    [*inside, "python3", "-c", APPLICATION, NEAR, str(relay.port), login().hex(), batch("rows 1 64").hex(), str(times)],
                    stdout=subprocess.PIPE) as far, killed(far):
                cases.same(f"who {what} is there", far.stdout.readline(), b"there\n")
                time.sleep(0.5)
                vanish()
                two, begun = log_in(relay), time.monotonic()
                two.settimeout(PATIENCE)
                cases.check(f"who {what} vanishes: the connection is another one's", rows(two, 2))
                took = time.monotonic() - begun
                cases.check(f"and that within the limit, who {what}", took < 30, took)


def server_vanished(program, cases, serve):
    """A server's host vanishes: who waits for its answer isn't kept for ever."""
    with far_host() as made:
        if not made:
            return
        inside, vanish = made
        with subprocess.Popen([*inside, serve, f"{FAR}:1433", "--let-others-in"], stderr=subprocess.PIPE) as far, killed(far):
            far.stderr.readline()
            with Relay(program, 1433, "--unacknowledged", "3", "--check", "0", at=FAR) as relay:
                one = log_in(relay)
                cases.check("a row of a far server", rows(one, 1))
                vanish()
                begun = time.monotonic()
                one.sendall(batch("rows 2 1"))
                one.settimeout(PATIENCE)
                # Which of the two the system says hangs on whether it still knows the host's hardware address.
                wanted = [error_packet(LOST, f"The server {FAR}:1433 fails with {it}.") for it in (
                    "ETIMEDOUT: Connection timed out (os error 110)", "EHOSTUNREACH: No route to host (os error 113)")]
                told = all_of(one)
                cases.check("who waits for a server that vanished is told", told in wanted, told)
                took = time.monotonic() - begun
                cases.check("and that within the limit", took < 30, took)


def crowded(program, cases, server):
    """More applications than the process's limit of descriptors leaves room for: some are told so, those within go on."""
    with Relay(program, server, "--most", "2", "--log", files=64) as relay:
        links, told = [], []
        for _ in range(60):
            link = connect(relay.port)
            links.append(link)
            with contextlib.suppress(OSError):
                link.sendall(login())
                told.append(error_in(message(link)))
        authenticated_count = told.count(None)
        cases.check("as many are authenticated as there is room for", authenticated_count >= 30, told)
        cases.check("further ones are told so, as far as there is room for that", TOO_MANY in told
                    and set(told) == {None, TOO_MANY}, told)
        cases.check("those within go on", all(rows(link, 1) and not link.close() for link in links[:authenticated_count]))
        cases.same("it tells what it does", relay.ask("/metrics")[0], 200)
        for link in links:
            link.close()
        lines = [it for it in relay.lines() if it.startswith("more applications")]
        cases.same("the log says it once", lines, ["more applications come than the relay has room for: 10,000, or what the"
                                                   " limit of open files leaves (ulimit -n)"])


def within(program, cases, server):
    """A limit of seconds runs out within one second of it."""
    with Relay(program, server, "--most", "1", "--wait", "2") as relay:
        one, took = log_in(relay), []
        cases.check("a row before a limit", rows(one, 1))
        # A busy machine may keep this script waiting itself: once it doesn't.
        while not took or min(took) >= 3 and len(took) < 12:
            two, begun = log_in(relay), time.monotonic()
            two.sendall(batch("rows 2 1"))
            two.settimeout(PATIENCE)
            two.recv(65536)
            took.append(time.monotonic() - begun)
        cases.check("a limit runs out within a second", all(2 <= it for it in took) and min(took) < 3, took)


def kinds(program, cases, server):
    """More kinds of logins than there may be: those go that nobody uses. What is authenticated of one address has a limit."""
    with Relay(program, server) as relay:
        for number in range(260):
            log_in(relay, program=f"p{number}").close()
        found = relay.json()
        cases.same("one more kind than there may be is authenticated", found["total_applications_authenticated"], 260)
        cases.check("in the place of one that nobody uses", found["groups_shared"] <= 256, found["groups_shared"])
    with socket.create_server(("127.0.0.1", 0)) as silent, Relay(program, silent.getsockname()[1], "--login", "60") as relay:
        links = []
        for number in range(33):
            links.append(connect(relay.port))
            links[-1].sendall(login_of(user=f"user{number}"))
        links[-1].settimeout(PATIENCE)
        cases.same("what is authenticated of one address has a limit", all_of(links[-1]), error_packet(
            50100, "The relay has as many logins of this address authenticated as it does at a time, 32."))
        other = socket.create_connection(("127.0.0.1", relay.port), PATIENCE, ("127.0.0.2", 0))
        other.sendall(login_of(user="other"))
        end = time.monotonic() + PATIENCE
        while (found := relay.json())["total_connections_dialed"] < 33 and time.monotonic() < end:
            time.sleep(0.1)
        cases.same("another address isn't kept out", (found["total_connections_dialed"], found["total_applications_refused"]), (33, 1))
        for link in (*links, other):
            link.close()


@contextlib.contextmanager
def served(serve, port):
    """A tdsserve at this port, which listens."""
    with subprocess.Popen([serve, f"127.0.0.1:{port}"], stderr=subprocess.PIPE) as child, killed(child):
        child.stderr.readline()
        yield child


def outage(program, cases, serve):
    """The server is away for a while: who asks meanwhile waits, and is served once it is back. So does who logs in, be it the
    first one of its kind; past the limit it is told why."""
    with socket.create_server(("127.0.0.1", 0)) as it:
        port = it.getsockname()[1]
    with served(serve, port) as first, Relay(program, port, "--most", "2", "--wait", "120", "--login", "2") as relay:
        one, two = log_in(relay), log_in(relay)
        cases.check("a row before an outage", rows(one, 1))
        first.kill()
        first.wait()
        two.sendall(batch("rows 2 1"))
        news = [connect(relay.port) for _ in range(3)]
        for link, user in zip(news, ("anna", "anna", "otto")):
            link.sendall(login_of(user=user))
        time.sleep(4)
        found = until(relay, lambda it: it["applications_waiting"] == 1)
        cases.same("who asks in an outage waits", found["applications_waiting"], 1)
        cases.same("so do first logins of other kinds", (found["applications_logging_in"], found["total_applications_refused"]), (3, 0))
        ats = [(it["waits_for"], it["limit"]) for it in found["sockets"] if it.get("user") in ("anna", "otto")]
        cases.same("and what for", ats, [("its connection to open", 120)] * 3)
        with served(serve, port):
            cases.check("and is served behind it", struct.pack("<Bi", 0xD1, 2) in message(two))
            cases.same("so are they", [(error_in(message(link)), rows(link, 3)) for link in news], [(None, True)] * 3)
    with Relay(program, port, "--wait", "2") as relay:
        link, begun = connect(relay.port), time.monotonic()
        link.sendall(login_of())
        cases.same("who logs in is told past the limit why", all_of(link), error_packet(
            50100, f"The server 127.0.0.1:{port} fails with ECONNREFUSED: Connection refused (os error 111)."))
        cases.check("and not before", time.monotonic() - begun >= 2)
        cases.same("it is a wait", relay.json()["total_limits_wait"], 1)


def restarted(program, cases, serve):
    """The server restarts under 200 applications: what was in flight is told so, and who holds a connection at its next
    request. Everybody else is served, those too who ask while the server is away."""
    with socket.create_server(("127.0.0.1", 0)) as it:
        port = it.getsockname()[1]
    with served(serve, port) as first, Relay(program, port, "--most", "16", "--wait", "300") as relay:
        links = [log_in(relay) for _ in range(200)]
        for it in links:
            it.settimeout(300)
        asking, holding, waiting, quiet = links[:6], links[6:16], links[16:100], links[100:]
        cases.same("rows before a restart", [rows(it, number) for number, it in enumerate(links[:16])], [True] * 16)
        first.send_signal(signal.SIGSTOP)
        for number, it in enumerate(asking + waiting):
            it.sendall(batch(f"rows {number} 1"))
        found = until(relay, lambda it: (it["applications_asking"], it["applications_waiting"]) == (6, 84))
        cases.same("some ask, and some wait", (found["applications_asking"], found["applications_waiting"]), (6, 84))
        first.kill()
        first.wait()
        cases.same("who asks is told", [error_of(it) for it in asking], [LOST] * 6)
        for number, it in enumerate(quiet[:50]):
            it.sendall(batch(f"rows {number} 1"))
        found = until(relay, lambda it: it["applications_waiting"] == 134)
        cases.same("who asks meanwhile waits", (found["applications_waiting"], found["total_connections_ended"]), (134, 16))
        with served(serve, port):
            # Each of them leaves then, so that the next one is lent its connection.
            told = [has_row(it, number) for number, it in (*enumerate(waiting, 6), *enumerate(quiet[:50]))]
            cases.same("and is served", told, [True] * 134)
            cases.same("so is who asks behind it", [rows(it, 1) for it in quiet[50:60]], [True] * 10)
            for it in holding:
                it.sendall(batch("rows 9 1"))
            cases.same("who held a connection is told", [error_of(it) for it in holding], [LOST] * 10)
            found = relay.json()
            cases.same("nobody else was closed", [found[f"total_{it}"] for it in ("applications_not_served", "limits_wait")], [0, 0])
            cases.same("and nobody has left", found["applications_quiet"] + found["applications_holding"], 50)


def has_row(link, number):
    """Whether the row of this number comes. Then the application leaves."""
    came = struct.pack("<Bi", 0xD1, number) in message(link)
    link.close()
    return came


def total(program, cases, server):
    """The connections of all logins together: what nobody holds gives way to who needs one."""
    with Relay(program, server, "--total", "2") as relay:
        a, b = log_in(relay, program="a"), log_in(relay, program="b")
        cases.check("two kinds have one each", rows(a, 1) and rows(b, 2))
        c = connect(relay.port)
        c.sendall(login_of(program="c"))
        cases.same("a third one finds none", all_of(c), error_packet(
            50100, "The relay has as many connections as it may, and all are held (--total)."))
        other = log_in(relay, program="b")
        other.sendall(batch("rows 3 1"))
        time.sleep(1)
        cases.same("who needs another one waits", until(relay, lambda it: it["applications_waiting"] == 1)["applications_waiting"], 1)
        a.close()
        cases.check("and is lent one where one is free", struct.pack("<Bi", 0xD1, 3) in message(other))
        other.close()
        until(relay, lambda it: it["connections_free"] >= 1)
        cases.check("and so is another kind", rows(log_in(relay, program="c"), 4))


def notices(program, cases, server):
    """A request that asks for a query notification (MS-TDS 2.2.5.3.1) is refused with an error, whole or in pieces."""
    text = "rows 2 1".encode("utf-16le")
    notice = struct.pack("<IH", 6 + 2 + 4 + 2 + 4, 1) + b"\2\0a\0b\0" + b"\2\0c\0d\0"
    transaction = struct.pack("<IHQI", 18, 2, 0, 1)
    # Behind a packet's header and the count of ALL_HEADERS, up to the header's type.
    for what, headers, known in (("first", notice + transaction, 18), ("second", transaction + notice, 36)):
        with Relay(program, server) as relay:
            one, two, other = log_in(relay), log_in(relay), log_in(relay)
            whole = packet(1, struct.pack("<I", 4 + len(headers)) + headers + text)
            cases.check(f"rows before a notification, {what}", rows(one, 1) and rows(other, 1))
            one.sendall(whole)
            for byte in whole[:known]:
                two.sendall(bytes([byte]))
                time.sleep(0.002)
            for link in (one, two):
                cases.same(f"a query notification is refused, {what}", all_of(link), error_packet(
                    50107, "The relay hands no query notification on: ask for it past the relay."))
            cases.check(f"others go on, {what}", rows(other, 2))
