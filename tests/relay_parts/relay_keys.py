"""Scenes of tests/relay_limits: which fields of LOGIN7 part groups (`--group`), and what the server is told in the place of
those that don't.

What is wanted is written by hand, by MS-TDS 2.2.6.4.
"""

import struct

from peers import connect, login, message, packet
from relay_servers import Before
from relay_told import Relay, error_in, rows

REFUSED = 50100
# Where the place of a text stands; where a number of four bytes does, what it is, and what in another login: of TDS 7.4 and
# 7.3, and of the flags the one for ODBC.
TEXTS = {"user": 40, "password": 44, "application": 48, "server": 52, "library": 60, "language": 64, "database": 68}
NUMBERS = {"tds-version": (4, 0x74000004, 0x730B0003), "packet-size": (8, 4096, 8000), "library-version": (12, 0x07010000, 0x07020000),
           "flags": (24, 0, 0x200), "time-zone": (28, 60, 120), "locale": (32, 0, 0x409)}
MAY = "application", "library", "library-version", "time-zone"
ALWAYS = "user", "password", "database", "language", "locale", "server", "flags", "packet-size", "tds-version"
OWN = {name: f"a {name}" for name in TEXTS} | {name: own for name, (_, own, _) in NUMBERS.items()}
RELAYS = {"application": "tdsrelay", "library": "tdsrelay", "library-version": 0, "time-zone": 0}


def said(another=None, recovers=False):
    """A LOGIN7 that says all of these, of which one is another."""
    data = bytearray(login()[8:])
    for name, place in TEXTS.items():
        text = (OWN[name] + "!" * (name == another)).encode("utf-16le")
        struct.pack_into("<HH", data, place, len(data), len(text) // 2)
        data += text
    for name, (place, own, other) in NUMBERS.items():
        struct.pack_into("<I", data, place, other if name == another else own)
    if recovers:
        data[27] |= 0x10
        struct.pack_into("<HH", data, 56, len(data), 4)
        data += struct.pack("<I", len(data) + 4) + b"\x01\0\0\0\0\xff"
    struct.pack_into("<I", data, 0, len(data))
    return packet(0x10, bytes(data))


def told_in(told):
    """What a LOGIN7 says."""
    found = {name: struct.unpack_from("<I", told, place)[0] for name, (place, _, _) in NUMBERS.items()}
    for name, place in TEXTS.items():
        start, count = struct.unpack_from("<HH", told, place)
        found[name] = told[start:start + 2 * count].decode("utf-16le")
    return found


def groups_of(relay, logins):
    """How many groups these make, and how many of them get rows."""
    links = [connect(relay.port) for _ in logins]
    for link, it in zip(links, logins):
        link.sendall(it)
        message(link)
    served = sum(rows(it, place) for place, it in enumerate(links))
    return relay.json()["groups_shared"], served, links


def parted(program, cases, server):
    """Each field that may part no groups is left out alone, and all of them; what else a login says parts them, named or not."""
    for words, keys in [((), MAY), (("--group", "database, user"), ()), *(
            (("--group", ",".join(it for it in MAY if it != out)), [it for it in MAY if it != out]) for out in MAY)]:
        with Before(server) as before, Relay(program, before.port, *words) as relay:
            count, served, links = groups_of(relay, [said(), *(said(it) for it in MAY)])
            cases.same(f"groups, and who gets rows {words}", (count, served), (1 + len(keys), 5))
            cases.same(f"what the server is told {words}", told_in(before.logins[0]),
                       {name: own if name in ALWAYS or name in keys else RELAYS[name] for name, own in OWN.items()})
            cases.same(f"each LOGIN7 says its length {words}", [struct.unpack_from("<I", it)[0] for it in before.logins],
                       [len(it) for it in before.logins])
            named = {it["program"] for it in relay.json()["sockets"] if it["kind"] == "application"}
            cases.same(f"who is who {words}", named, {"a application", "a application?"})
            del links
    for words in ((), ("--group", "user"), ("--group", ",".join(ALWAYS))):
        with Relay(program, server.port, *words) as relay:
            count, served, links = groups_of(relay, [said(), *(said(it) for it in ALWAYS)])
            cases.same(f"what makes a session parts groups {words}", (count, served), (1 + len(ALWAYS), 1 + len(ALWAYS)))
            del links


def placed(program, cases, server):
    """Session recovery is asked for as before, behind the relay's names. A login whose texts stand in its fields is refused."""
    with Before(server) as before, Relay(program, before.port, "--share", "transaction", "--group", "user") as relay:
        _, served, links = groups_of(relay, [said(recovers=True)])
        told = before.logins[0]
        start = struct.unpack_from("<I", told, struct.unpack_from("<H", told, 56)[0])[0]
        cases.same("the features stand last", (served, told[start:].hex(), struct.unpack_from("<I", told)[0]), (1, "0100000000ff", len(told)))
        cases.same("what stands before them", {name: own for name, own in told_in(told).items() if name in TEXTS},
                   {name: RELAYS.get(name, OWN[name]) for name in TEXTS})
        wrong = bytearray(said())
        struct.pack_into("<HH", wrong, 8 + TEXTS["user"], TEXTS["application"], 2)
        links.append(connect(relay.port))
        links[-1].sendall(bytes(wrong))
        answer = message(links[-1])
        cases.check("a user's name that stands where an application's has its place", error_in(answer) == REFUSED
                    and "The login has no room for the relay's name.".encode("utf-16le") in answer, answer)
