"""What tests/serving looks at of session recovery: what a tdsserve says of a session's states (MS-TDS 2.2.7.11, 2.2.7.21).

The cases are those of tests/crates/test_state/data/serve.txt, which tds_state's tracker follows too.
"""

import json
import os
import struct
import sys
import tempfile

from cases import ROOT, TESTS, ran
from peers import ATTENTION, Server, batch, connect, exactly, login, message, packet
from serving_real import asked, featured

SERVE = f"{TESTS}/crates/test_state/data/serve.txt"
KINDS = {"batch": 1, "call": 3, "load": 0x0E}
RESETS = {"full": 8, "keep": 16}
RECOVERY = b"\x01\0\0\0\0"


def bytes_of(words):
    """The bytes that words of digits spell; a word behind `"` stands for its letters, of two bytes each."""
    found = b""
    for word in words.split():
        if word.startswith('"'):
            found += word[1:].encode("utf-16le")
        else:
            digits, _, times = word.partition("*")
            found += bytes.fromhex(digits) * int(times or 1)
    return found


def cases_of(path):
    """The cases of the file: a name, the events of its script, what its login is told, and the steps behind that."""
    greeting, found = "", []
    with open(path, encoding="ascii") as it:
        for line in it.read().splitlines():
            word, _, rest = line.partition(" ")
            if word == "greeting":
                greeting = rest
            elif word == "case":
                found.append([rest, "", greeting, []])
            elif line.startswith("# script: "):
                found[-1][1] = line.removeprefix("# script: ")
            elif word and word not in ("#", "greeted", "rests", "holds"):
                found[-1][3].append((word, rest))
    return found


class Peer:
    """A client that is authenticated, and asks for session recovery."""

    def __init__(self, port, features=RECOVERY):
        self.link, self.descriptor = connect(port), 0
        self.link.sendall(featured(features + b"\xff"))
        self.greeting = message(self.link)

    def ask(self, word, rest):
        """Sends a request of this kind, behind a reset or without."""
        first, _, others = rest.partition(" ")
        status = 1 | RESETS.get(first, 0)
        if status == 9:
            self.descriptor = 0
        headers = struct.pack("<IIHQI", 22, 18, 2, self.descriptor, 1)
        self.link.sendall(packet(KINDS[word], headers + bytes_of(others if status > 1 else rest), status))

    def hear(self):
        """The next message, of which the transaction is taken over."""
        told = message(self.link)
        at = told.find(b"\xe3\x0b\0")
        if at >= 0:
            self.descriptor = int.from_bytes(told[at + 5:at + 13], "little") if told[at + 3] == 8 else 0
        return told


def walked(port, steps):
    """What a peer is told at these steps, and what it should be."""
    peer = Peer(port)
    told, wanted = [], []
    for word, rest in steps:
        if word == "cancel":
            peer.link.sendall(ATTENTION)
        elif word == "hear":
            told.append(peer.hear().hex())
            wanted.append(bytes_of(rest).hex())
        else:
            peer.ask(word, rest)
    peer.link.close()
    return peer.greeting, told, wanted


def recovery(program, cases):
    """What is told where a login asks for session recovery."""
    for name, events, greeting, steps in cases_of(SERVE):
        with tempfile.TemporaryDirectory() as room:
            with open(f"{room}/script.json", "w", encoding="ascii") as it:
                it.write(f'{{"version": 1, "events": [{events}]}}')
            with Server(program, "--real", "--script", f"{room}/script.json") as server:
                told, found, wanted = walked(server.port, steps)
        cases.same(f"session recovery, {name}: its login", told.hex(), bytes_of(greeting.partition(" ")[2]).hex())
        cases.same(f"session recovery, {name}", "\n".join(found), "\n".join(wanted))


def recovery_logins(program, cases):
    """Which logins have it, and that nobody else is told of states."""
    setting = batch("set lock_timeout 5")
    plain = "fd" + 12 * "00"
    with Server(program, "--real") as server:
        cases.same("a setting, where recovery isn't asked for", asked(server.port, login(), setting)[1].hex(), plain)
        told = asked(server.port, featured(b"\x0a\0\0\0\0" + RECOVERY + b"\xff"), setting)
        cases.same("beside UTF-8, which isn't given", told[0][-20:].hex(), "0a0100000000ff" + "fd" + 12 * "00")
        cases.check("and the setting is told", told[1].startswith(b"\xe4"), told[1])
        brings = b"\x01\x04\0\0\0\0\0\0\0"
        told = asked(server.port, featured(brings + b"\xff"), setting)
        cases.same("a session that is to be recovered isn't", told[1].hex(), plain)
    with Server(program) as server:
        before = asked(server.port, login())[0]
        told = asked(server.port, featured(RECOVERY + b"\xff"), setting)
        cases.check("without --real it stands before DONE", told[0].startswith(before[:-13] + b"\xae\x01")
                    and told[0].endswith(b"\xff" + before[-13:]), told[0])
        cases.check("and the setting is told", told[1].startswith(b"\xe4"), told[1])


def told_again(program, cases):
    """News in a packet that an attention kept from going out is told with the next answer."""
    text = "set lock_timeout 5;rows 1 64;rows 1 64"
    with tempfile.TemporaryDirectory() as room:
        with Server(program) as server:
            packets = len(list(packets_of(server.port, text)))
        with open(f"{room}/script.json", "w", encoding="ascii") as it:
            it.write(f'{{"version": 1, "events": [["hold", 1, {packets - 1}]]}}')
        with Server(program, "--script", f"{room}/script.json") as server:
            peer = Peer(server.port)
            peer.link.sendall(batch(text))
            for _ in range(packets - 1):
                size = struct.unpack(">H", exactly(peer.link, 8)[2:4])[0]
                exactly(peer.link, size - 8)
            peer.link.sendall(ATTENTION)
            while not acknowledges(peer.hear()):
                pass
            peer.link.sendall(batch("get a"))
            cases.check("news that an attention cut off is told again", bytes_of('1E 02 "5') in peer.hear())
            peer.link.close()


def packets_of(port, text):
    """The packets that a text is answered with."""
    peer = Peer(port)
    peer.link.sendall(batch(text))
    status = 0
    while not status & 1:
        header = exactly(peer.link, 8)
        status = header[1]
        yield exactly(peer.link, struct.unpack(">H", header[2:4])[0] - 8)
    peer.link.close()


def acknowledges(told):
    """Whether a message's last DONE acknowledges an attention (MS-TDS 2.2.7.6)."""
    return told[-13] == 0xFD and bool(told[-12] & 0x20)


# What beside/tdsprobe says of a right server, whose question it can't ask where a line is None.
KEEPS = "its application keeps the connection until"
SHARED = {
    "lock_timeout": f"told as changed by state 30, and told back: {KEEPS} then",
    "rowcount": f"told as changed by state 31, and told back: {KEEPS} then",
    "ansi_nulls": f"told as changed by state 39, and told back: {KEEPS} then",
    "isolation_level": f"told as changed by state 29, and told back: {KEEPS} then",
    "language": f"told as changed by ENVCHANGE 2, state 28, and told back: {KEEPS} then",
    "context_info": f"told as changed by state 53, and not told back: {KEEPS} a reset",
    "session_context": None,
    "fmtonly": f"told as changed by state 50, and told back: {KEEPS} then",
    "database": f"told as changed by ENVCHANGE 1, state 27, and told back: {KEEPS} then",
    "temporary_table": f"told as unrecoverable by state 56, and told back: {KEEPS} then",
    "global_temporary_table": f"told as unrecoverable by state 56, and told back: {KEEPS} then",
    "cursor": f"told as unrecoverable by state 57, and told back: {KEEPS} then",
    "application_lock": f"told as unrecoverable by state 58, and told back: {KEEPS} then",
    "another_user": None,
    "prepare": f"told as unrecoverable by state 59, and told back: {KEEPS} then (a relay goes by the call itself)",
    "cancel": "told behind the acknowledgement: a relay awaits one whole answer more",
    "reset": "told, and nothing is left",
    "reset_that_keeps": "told, and nothing is left",
    "two_calls": None,
}
LOST = "NOT TOLD: who has it loses it with the connection"
LEFT = "LEFT AND NOT TOLD: isolation level serializable: the next application finds it"
# A script's events; what is said otherwise then, and because of what connections are to be shared by sessions.
WRONG = (
    ([], {}, ""),
    ([["untold", "lock_timeout"]],
     {"lock_timeout": LOST, "cancel": "NOT TOLD, or not acknowledged: what a cancelled batch has set is lost with the connection"},
     "lock_timeout, cancel"),
    ([["untold", "tables"]], {"temporary_table": LOST, "global_temporary_table": LOST},
     "temporary_table, global_temporary_table"),
    ([["left", "isolation level"]], {"reset": LEFT, "reset_that_keeps": LEFT}, "reset, reset_that_keeps"),
    ([["long", "rowcount", 9000]],
     {"rowcount": SHARED["rowcount"] + "; WRONG: a SESSIONSTATE has 9011 bytes: a relay keeps 8,192"}, "rowcount"),
    ([["untold", "cursors"], ["untold", "locks"], ["untold", "handles"]],
     {"cursor": LOST, "application_lock": LOST,
      "prepare": "who has it loses it with the connection (a relay goes by the call itself)"},
     "cursor, application_lock"),
)


def probed(server, room):
    """What beside/tdsprobe says of a server: its lines by their names, and the last one."""
    probe, kept = [sys.executable, f"{ROOT}/beside/tdsprobe"], f"{room}/kept.json"
    ran([*probe, f"127.0.0.1:{server.port}", "--clear", "--user", "u", "--database", "main", "--server-is", "tdsserve", "--only",
         "sharing", "--out", kept], env={**os.environ, "TDSPROBE_PASSWORD": "Geheim-7"})
    *lines, last = ran([*probe, "--sharing", kept])[0].decode().splitlines()
    found = dict(line.split(": ", 1) for line in lines)
    return {name: None if said.startswith("it can't be asked here") else said for name, said in found.items()}, last


def sharing(program, cases):
    """What beside/tdsprobe says of sharing by transactions, of a right server and of wrong ones."""
    for events, otherwise, because in WRONG:
        with tempfile.TemporaryDirectory() as room:
            with open(f"{room}/script.json", "w", encoding="ascii") as it:
                json.dump({"version": 1, "events": events}, it)
            with Server(program, "--real", "--script", f"{room}/script.json") as server:
                told, last = probed(server, room)
        cases.same(f"tdsprobe of {events}", "\n".join(f"{it}: {said}" for it, said in told.items()),
                   "\n".join(f"{it}: {said}" for it, said in (SHARED | otherwise).items()))
        cases.same(f"tdsprobe of {events}, the whole", last, f"share by sessions, because of: {because}" if because else
                   "by these answers connections can be shared by transactions")
