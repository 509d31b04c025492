"""Scenes of tests/relay_limits: servers that are named, before a helper in Python that answers as `tdstls names` does.

What is wanted is written by hand.
"""

import contextlib
import os
import socket
import subprocess
import threading
import time

from peers import PATIENCE, connect, message
from relay_operator import all_of, until
from relay_servers import Before, routing
from relay_told import Relay, error_in, log_in, login_of, rows

UNKNOWN = "The relay knows no address of its server's name."


class Names:
    """Answers names at a Unix socket: `found` has the line behind each, without an answer where it has none."""

    def __init__(self, room, **found):
        self.path, self.found, self.asked = f"{room}/names", found, []
        with contextlib.suppress(OSError):
            os.unlink(self.path)
        self.listener = socket.socket(socket.AF_UNIX)
        self.listener.bind(self.path)
        self.listener.listen()
        self.words = "--names", f"unix:{self.path}"
        self.links = []
        threading.Thread(target=self.run, daemon=True).start()

    def run(self):
        with contextlib.suppress(OSError):
            while True:
                link, _ = self.listener.accept()
                self.links.append(link)
                threading.Thread(target=self.answer, args=(link,), daemon=True).start()

    def answer(self, link):
        with contextlib.suppress(OSError):
            for line in link.makefile():
                name = line.rstrip("\n")
                self.asked.append(name)
                if name in self.found:
                    # In two pieces, as a socket may cut it.
                    said = f"{name} {self.found[name]}\n".encode()
                    link.sendall(said[:5])
                    time.sleep(0.02)
                    link.sendall(said[5:])

    def __enter__(self):
        return self

    def __exit__(self, *_):
        for it in (self.listener, *self.links):
            with contextlib.suppress(OSError):
                it.shutdown(socket.SHUT_RDWR)
            it.close()


def first_error(relay, **who):
    """The error of a login, None where it is authenticated."""
    with connect(relay.port) as link:
        link.sendall(login_of(**who))
        return error_in(message(link))


def named(program, cases, server, room):
    """Servers that are named."""
    addresses(program, cases, server.port, room)
    itself(program, cases, room)
    sent_on(program, cases, server, room)


def addresses(program, cases, server, room):
    """A server is named: its addresses are tried in order, and asked anew behind their time to live."""
    with Names(room, sql="600 127.0.0.9 127.0.0.1") as names, Relay(program, server, *names.words, "--log", at="sql") as relay:
        one = log_in(relay)
        cases.check("a row of a server that is named", rows(one, 1))
        found = relay.json()
        cases.same("the first address was tried, and the next one", (found["total_servers_failed"], found["total_connections_opened"]), (1, 1))
        cases.same("it was asked once", names.asked, ["sql"])
        cases.check("the page has its addresses", f"server 0 127.0.0.9:{server}" in relay.ask("/")[1].decode()
                    and f"server 0 127.0.0.1:{server}" in relay.ask("/")[1].decode())
        lines = relay.lines()
        cases.check("and a line says that they are others", "name sql has other addresses than before" in lines, lines)
    with Names(room, sql="1 127.0.0.9") as names, Relay(program, server, *names.words, "--wait", "0", at="sql") as relay:
        cases.same("nobody listens at its address", first_error(relay), 50100)
        names.found["sql"] = "1 127.0.0.1"
        end = time.monotonic() + PATIENCE
        while first_error(relay) and time.monotonic() < end:
            time.sleep(0.2)
        cases.check("it is asked again behind its time to live", time.monotonic() < end and rows(log_in(relay), 1), names.asked)
        # From now on nothing is answered: what is known stays, and nobody waits.
        del names.found["sql"]
        time.sleep(2)
        begun = time.monotonic()
        cases.check("a resolver that is silent holds nobody up", first_error(relay, program="another") is None
                    and time.monotonic() - begun < 8)
    with Names(room, sql="! lookup sql: no such host") as names, Relay(program, server, *names.words, "--log", at="sql") as relay:
        link = connect(relay.port)
        link.sendall(login_of())
        cases.check("a name that there is none of", UNKNOWN.encode("utf-16le") in all_of(link))
        cases.check("a line says so", "name sql has no address" in relay.lines())


def itself(program, cases, room):
    """A name that has the relay's own address: that one is left out."""
    with socket.create_server(("127.0.0.1", 0)) as it:
        port = it.getsockname()[1]
    with Names(room, own="600 127.0.0.1") as names, subprocess.Popen(
            [program, f"127.0.0.1:{port}", f"own:{port}", *names.words, "--until-input-ends", "--log"],
            stdin=subprocess.PIPE, stderr=subprocess.PIPE) as child:
        cases.same("the server's name is told", child.stderr.readline(), f"relaying 127.0.0.1:{port} to own:{port}\n".encode())
        with connect(port) as link:
            link.sendall(login_of())
            cases.check("a relay isn't its own server", UNKNOWN.encode("utf-16le") in all_of(link))
        child.stdin.close()
        said = child.stderr.read().decode()
        cases.check("a line says so", "name own has no address but this relay's own" in said, said)
        child.stderr.close()
    for words, told in (((f"own:{port}",), "error: SERVER \"own\" is a name: --names unix:PATH says where `tdstls names` answers"
                         " (docs/RELAY.md)\n"),
                        ((f"own:{port}", "--names", "x"), "error: --names takes unix:PATH, and not \"x\"\n"),
                        (("a/b:1",), "error: SERVER \"a/b:1\" isn't an IP address or a name, a colon and a port, as"
                         " sql.example:1433\n"), (("own:0",), "error: SERVER \"own:0\" isn't an IP address or a name, a colon and"
                         " a port, as sql.example:1433\n")):
        done = subprocess.run([program, "127.0.0.1:0", *words], stdin=subprocess.DEVNULL, stderr=subprocess.PIPE, timeout=PATIENCE,
                              check=False)
        cases.same(f"words that are wrong {words}", (done.returncode, done.stderr.decode()), (2, told))


def sent_on(program, cases, server, room):
    """A server sends logins on to a name: others go on while it is asked, and the login goes on then."""
    with Names(room) as names, Before(server) as far:
        with Before(server, (), routing("other", far.port)) as router, Relay(program, router.port, *names.words) as relay:
            time.sleep(0.6)
            link = connect(relay.port)
            link.sendall(login_of())
            until(relay, lambda it: it["total_servers_routed"] == 1 or "other" in names.asked)
            begun = time.monotonic()
            relay.json()
            cases.check("nobody waits for the name", time.monotonic() - begun < 8)
            cases.same("the login isn't answered yet", relay.json()["total_applications_authenticated"], 0)
            names.found["other"] = "600 127.0.0.1"
            with connect(relay.port) as second:
                second.sendall(login_of(program="another"))
                cases.same("one that asks the same name is authenticated", error_in(message(second)), None)
            cases.same("and so is the first one", error_in(message(link)), None)
            cases.check("it has a row", rows(link, 7))
            link.close()
        # Nobody listens at the first of its addresses, and the second one is the relay's.
        with Before(server, (), routing("third", far.port)) as router, Relay(program, router.port, *names.words, "--log") as relay:
            names.found["third"] = "600 127.0.0.9 127.0.0.1"
            time.sleep(0.6)
            cases.same("its addresses are tried in order", first_error(relay), None)
            lines = relay.lines()
            dialed = [it.rpartition(" ")[2] for it in lines if " is dialed at " in it and it.endswith(f":{far.port}")]
            cases.same("the first one was, and the next one", dialed, [f"127.0.0.9:{far.port}", f"127.0.0.1:{far.port}"])
