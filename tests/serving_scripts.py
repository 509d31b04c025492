"""Scripts of tests/serving: what a tdsserve does to a driver by a script, and what it tells of it."""

import contextlib
import json
import re
import socket
import struct
import subprocess
import tempfile
import time

from cases import DATA, built, ran, rows
from peers import PATIENCE, Client, Server, batch, connect, login, message, packet

SERVE = f"{DATA}/serve"


def answer(port, data, messages, piece=1 << 20):
    """The data of so many messages that these bytes are answered with, sent so many at a time."""
    link = connect(port)
    try:
        for place in range(0, len(data), piece):
            link.sendall(data[place:place + piece])
        return [message(link) for _ in range(messages)]
    finally:
        link.close()


def until_closed(port, data):
    """What is answered to these bytes until the server closes; None where it doesn't."""
    link = connect(port)
    got = b""
    try:
        link.sendall(data)
        while more := link.recv(65536):
            got += more
        return got
    except socket.timeout:
        return None
    except OSError:
        return got
    finally:
        link.close()


def is_greeted(client):
    """Whether a client's request is answered as it should be."""
    client.ask("say hello")
    client.finish()
    return client.became == "finished" and client.told == ["info 50000 hello", "done 0001 0", "done 0000 0"]


def deeds_of(given):
    """The words of the server, the text of its script (None for none), and what a client does."""
    words, script, deeds = [], None, []
    for line in given.splitlines():
        word, _, rest = line.partition(": ")
        if word == "words":
            words += rest.split()
        elif word == "script":
            script = rest
        elif word == "replay":
            words += ["--replay", f"{SERVE}/{rest}"]
        else:
            deeds.append((word, rest))
    return words, script, deeds


def scripts(program, cases):
    """What clients meet where a script puts them into bad places, and before a recording: that of peers.py, and
    tdsask."""
    for name, given, wanted in rows(f"{SERVE}/scripts.txt") + rows(f"{SERVE}/recordings.txt"):
        words, script, deeds = deeds_of(given)
        with tempfile.TemporaryDirectory() as room:
            if script:
                words += ["--script", f"{room}/script.json"]
                with open(words[-1], "w", encoding="ascii") as it:
                    it.write(script)
            with Server(program, *words) as server:
                cases.same(name, "".join(met(Client(server.port), deeds)), wanted)
                line, told = asked(deeds, wanted, server.port)
                done = [ran([ask, f"127.0.0.1:{server.port}", *line]) for ask in built("tdsask")]
                cases.same(f"{name}, tdsask", done, [told] * len(done))


def asked(deeds, wanted, port):
    """The words by which tdsask does the same, and what it prints on both streams with its status, where
    a client meets these lines."""
    line, printed, number, descriptor = [], "", 0, "0"
    parts = re.findall(r"(?m)^(\S.*): (\w+)\n((?:  .*\n)*)  \d+ bytes, descriptor (\d+)\n", wanted)
    for at, (what, became, told, descriptor) in enumerate(parts):
        if what != "cancel":
            number += 1
            cancels = parts[at + 1][0] == "cancel" if at + 1 < len(parts) else False
            # it cancels once it was told as many tokens as the waiting client was
            line += (["--cancel", str(told.count("\n"))] if cancels else []) + [what]
            if cancels:
                continue
        if became == "cut":
            return line + [it for word, it in deeds[at + 1:] if word == "ask"], (
                printed.encode(), f"error: 127.0.0.1:{port}: awaiting the answer to request {number}: "
                "the server closed the connection\n".encode(), 1)
        printed += f"request {number} {became}\n{told}"
    return line, (f"{printed}descriptor {descriptor}\n".encode(), b"", 0)


def met(client, deeds):
    """Lets a client do this, and gives the lines of what it meets."""
    for word, text in deeds:
        if word == "ask":
            client.ask(text)
        else:
            client.cancel()
        client.settle()
        yield f"{text or word}: {client.met()}"
        if client.is_over:
            return


def faults(program, cases):
    """What a client meets where a script breaks the protocol; refused logins, failed resets, late answers
    and closed connections."""
    for name, given, wanted in rows(f"{SERVE}/faults.txt"):
        _, script, deeds = deeds_of(given)
        with scripted(program, script) as server:
            cases.same(name, "".join(met(Client(server.port), deeds)), wanted)
    for name, events, sent, number in (
            ("a login is refused", [["refuse"]], login(), 18456),
            ("a reset fails", [["fail_reset"]], login() + batch("say one", status=9), 18056)):
        with scripted(program, json.dumps({"version": 1, "events": events})) as server:
            told = until_closed(server.port, sent) or b""
            cases.check(name, struct.pack("<I", number) in told, told)
    # Its time is that at which its round began: on a machine that is held up, some time before the request was sent.
    for name, events, least in (("a late answer", [["late", 1, 400]], 0.2), ("a late login", [["late", 0, 400]], 0.2),
                                ("a connection that is closed", [["close", 400]], 0.2)):
        with scripted(program, json.dumps({"version": 1, "events": events})) as server:
            started = time.monotonic()
            if events[0][0] == "close":
                is_right = until_closed(server.port, login()) is not None
            elif events[0][1] == 0:
                is_right = answer(server.port, login(), 1)[0].startswith(b"\xe3")
            else:
                is_right = answer(server.port, login() + batch("rows 7 3"), 2)[1].startswith(b"\x81")
            cases.check(name, is_right and least <= time.monotonic() - started < PATIENCE)


def logs(program, cases):
    """What --log-json writes of a connection: each line is an object."""
    with subprocess.Popen([program, "127.0.0.1:0", "--log-json", "--until-input-ends"], stdin=subprocess.PIPE,
                          stderr=subprocess.PIPE, text=True, encoding="ascii") as child:
        port = int(child.stderr.readline().rpartition(":")[2])
        client = Client(port)
        for text in ("begin", 'say "\u20ac"\\', "no " + "x" * 100, "--rollback"):
            client.ask(text)
            client.finish()
        client.link.close()
        child.stdin.close()
        lines = child.stderr.read().splitlines()
    told = [json.loads(line) for line in lines[:-1]]
    for it in told:
        it.pop("milliseconds", None)
        it.pop("from", None)
    asked = lambda number, text, transaction, kind="batch": [
        {"connection": 1, "event": "request", "request": number, "kind": kind, "text": text,
         "transaction": transaction}]
    answered = lambda number, failed: [
        {"connection": 1, "event": "answered", "request": number, "failed": failed}]
    wanted = [{"connection": 1, "event": "opened"}, {"connection": 1, "event": "logged in", "packets": 4096},
              *asked(1, "begin", 0), *answered(1, False), *asked(2, 'say "\u20ac"\\', 1), *answered(2, True),
              *asked(3, "no " + "x" * 57, 1), *answered(3, True),
              *asked(4, "TM_ROLLBACK_XACT", 1, "transaction request"), *answered(4, False),
              {"connection": 1, "event": "closed", "why": "its end"}]
    cases.same("a log of objects", told[:len(wanted) - 1] + told[-1:], wanted)


@contextlib.contextmanager
def scripted(program, script):
    """A server with this script."""
    with tempfile.TemporaryDirectory() as room:
        with open(f"{room}/script.json", "w", encoding="ascii") as it:
            it.write(script)
        with Server(program, "--script", f"{room}/script.json") as server:
            yield server


def line_ends(program, cases):
    """Batches as command-line clients and drivers send them: with blanks and line ends behind the text."""
    with Server(program) as server:
        client = Client(server.port)
        for name, _, wanted in rows(f"{SERVE}/line_ends.txt"):
            client.ask(json.loads(name))
            client.finish()
            cases.same(name, "".join(f"  {line}\n" for line in client.told), wanted)
        plain = answer(server.port, login() + batch("rows 7 3"), 2)
        for text in ("rows 7 3\n", "rows 7 3\r\n", "rows 7 3 \t\r\n\n"):
            cases.same(json.dumps(text), answer(server.port, login() + batch(text), 2), plain)
        in_two = batch("rows 7 3", status=0) + packet(1, "\n".encode("utf-16le"))
        cases.same("a line end in its own packet", answer(server.port, login() + in_two, 2), plain)


def wrong_scripts(program, cases):
    """Files that are no scripts, and what is said of them."""
    with tempfile.TemporaryDirectory() as room:
        for name, given, wanted in rows(f"{SERVE}/wrong_scripts.txt"):
            with open(f"{room}/f", "w", encoding="utf-8") as it:
                it.write(given)
            told = ran([program, "127.0.0.1:0", "--script", "f"], cwd=room)
            cases.same(name, told, (b"", wanted.encode(), 2))
        with open(f"{room}/f", "w", encoding="utf-8") as it:
            it.write('{"version": 1, "events": [["hold", 1, 2], ["cross", "say *", 0], ["cut", 3, 0], ["split", 7], '
                     '["answer", "a", "get a"], ["answer_hex", "b", "fd 000000000000000000000000"], '
                     '["broken_hex", "c", "00"], ["deaf", 4], ["late", 0, 9], ["close", 900], '
                     '["fail_reset"], ["break", 5, "no_end"]]}')
        with Server(program, "--script", f"{room}/f") as server:
            cases.check("a script of each event is served by", server.is_alive())
