"""What passes tdstls, for tls/tests/encryption: what each kind of driver is answered at each setting, both modes
back to back in all modes, cancels across both, PRELOGINs in single bytes and those that lie, what isn't
TDS. Each part takes the place and the cases of that script.
"""

import contextlib
import os
import re
import subprocess

from cases import built
from peers import Server, batch, connect, message, packet, prelogin
from tls_peers import (NOT_SUP, OFF, ON, REQ, Inside, cancels, drive, encryption, hello, is_let_in, login, options, over,
                       refusal, rows, strict)

KINDS = ("on", "login", "strict")
NO_SERVER = (17830, "tdstls: the server behind it can't be reached.")


def settings(place, cases):
    """What a driver is answered that says this, at each -require; and that it is served, or refused."""
    answers = {"none": {OFF: OFF, ON: ON, NOT_SUP: NOT_SUP, REQ: ON, None: NOT_SUP},
               "login": {OFF: OFF, ON: ON, NOT_SUP: REQ, REQ: ON, None: REQ},
               "all": {OFF: REQ, ON: ON, NOT_SUP: REQ, REQ: ON, None: REQ}}
    for require, wanted in answers.items():
        for more in ([], ["-answer"]):
            server = place.server("-require", require, *more)
            for asked, answered in wanted.items():
                name = f"-require {require}{' -answer' * bool(more)}, a driver says {asked}"
                given = options((0, 6, 6), data=bytes(6)) if asked is None else None
                by, rest, is_answered = drive(server.port, asked, place.context(), given=given)
                by.sendall(login())
                cases.check(name, is_answered == answered and is_let_in(message(rest)) and rows(rest, 7), is_answered)
            by, told = strict(server.port, place.context())
            by.sendall(login(0x08000000))
            cases.check(f"-require {require}, TDS 8.0", told == REQ and is_let_in(message(by)) and rows(by, 7))
            cases.check("the line of TDS 8.0", server.said("encrypt=strict tls=1.3 "), server.log())
            for name, data in (("without a PRELOGIN", login()), ("behind one that can't encrypt", prelogin(NOT_SUP) + login())):
                told = in_clear(server.port, data)
                wanted_told = None if require == "none" else refusal(told)
                cases.check(f"-require {require}, LOGIN7 in clear {name}",
                            is_let_in(told) if require == "none" else wanted_told and wanted_told[0] == 17835, told)
            if require != "none":
                cases.check("its line", server.said("LOGIN7 in clear", 2), server.log())
            bad = connect(server.port)
            bad.sendall(prelogin(5))
            cases.check("an encryption of 5 is refused", over(bad) == b"" and server.said("encryption 0x05"), server.log())


def in_clear(port, data):
    """The data of the last message that comes, where these bytes are sent and no more."""
    link = connect(port)
    link.sendall(data)
    told = message(link)
    return message(link) if data[0] == 0x12 else told


def back_to_back(place, cases):
    """Both modes, one behind the other."""
    for require in ("none", "login", "all"):
        for more in ([], ["-answer"]):
            server = place.server("-require", require, *more)
            for kind in KINDS:
                client = place.client(server.port, "-encrypt", kind)
                name = f"-encrypt {kind}, -require {require}{' -answer' * bool(more)}"
                link = connect(client.port)
                link.sendall(prelogin(NOT_SUP))
                is_clear = encryption(message(link)) == NOT_SUP
                link.sendall(login(more=9000 if require == "all" else 0))
                cases.check(name, is_clear and is_let_in(message(link)) and rows(link, 7))
                cases.check(f"{name}, a cancel", cancels(link))
                straight = connect(client.port)
                straight.sendall(login() + batch("rows 7 3"))
                cases.check(f"{name}, LOGIN7 at once", is_let_in(message(straight)) and len(message(straight)) > 26)
                agreed = "encrypt=" + ("on" if kind == "login" and require == "all" else kind)
                cases.check(f"{name}, the lines", client.said(agreed, 2) and server.said(agreed, 2), client.log())
                link.close()
                cases.check(f"{name}, the end", client.said('why="near closed"'), client.log())
    server = place.server()
    client = place.client(server.port)
    for asked in (ON, REQ):
        told = in_clear(client.port, prelogin(asked) + login())
        cases.check(f"a clear side that is asked for {asked}", (refusal(told) or [0])[0] == 17835, told)


def pieces(place, cases):
    """PRELOGIN and the handshake in single bytes."""
    server = place.server()
    for asked in (OFF, ON):
        for size in (1, 7, 100):
            link = connect(server.port)
            for byte in prelogin(asked):
                link.sendall(bytes([byte]))
            told = encryption(message(link))
            inside = Inside(link, place.context(), size)
            rest = link if told == OFF else inside
            inside.sendall(login())
            cases.check(f"packets of {size}, {asked}", told == asked and is_let_in(message(rest)) and rows(rest, 7))
    data = prelogin(ON)[8:]
    link = connect(server.port)
    link.sendall(b"".join(packet(0x12, data[at:at + 1], int(at == len(data) - 1)) for at in range(len(data))))
    cases.check("PRELOGIN in packets of a byte", encryption(message(link)) == ON)


# What isn't a PRELOGIN as it should be, and why it is refused.
WRONG = {
    "a packet shorter than its header": (b"\x12\x01\0\x07\0\0\0\0", "a packet's length of 7"),
    "a packet of no length": (b"\x12\x01\0\0\0\0\0\0", "a packet's length of 0"),
    "a message longer than a packet": (b"\x12\x01\xff\xff\0\0\0\0" + bytes(65527), "too long"),
    "packets without end": (packet(0x12, bytes(4000), 0) * 2, "too long"),
    "an empty packet within": (packet(0x12, b"", 0), "an empty packet"),
    "another packet within": (packet(0x12, b"\0", 0) + packet(0x10, b"\0"), "a packet of kind 0x10"),
    "no data": (packet(0x12, b""), "no end"),
    "no end of options": (options((0, 5, 6), end=b"", data=bytes(0)), "no end"),
    "half an option": (packet(0x12, b"\0\0\x0b\0"), "no end"),
    "an option beyond the message": (options((1, 6, 2), data=b"\1"), "reaches beyond its message"),
    "an option far beyond": (options((1, 65535, 65535), data=b"\1"), "reaches beyond its message"),
    "an option that begins beyond": (options((1, 7, 1), data=b"\1"), "reaches beyond its message"),
    "an option twice": (options((1, 11, 1), (1, 12, 1), data=b"\1\1"), "one too many"),
    "33 options": (options(*[(at, 166, 0) for at in range(33)], data=b""), "one too many"),
    "two options that overlap": (options((0, 11, 6), (1, 16, 1), data=bytes(6)), "overlaps another"),
    "two options of the same bytes": (options((1, 11, 1), (4, 11, 1), data=b"\1"), "overlaps another"),
    "an option over the list": (options((1, 0, 1), data=b"\1"), "overlaps another"),
    "an option over the list's end": (options((1, 5, 1), data=b"\1"), "overlaps another"),
}


def wrong_prelogins(place, cases):
    """PRELOGINs that lie, to both modes."""
    server = place.server()
    client = place.client(server.port)
    for name, (data, why) in WRONG.items():
        for mode, it in (("server", server), ("client", client)):
            before = it.log().count(why)
            link = connect(it.port)
            with contextlib.suppress(OSError):
                link.sendall(data)
            told = over(link)
            cases.check(f"{name}, to the {mode}", told == b"" and it.said(why, before + 1), (told, it.log()))
    is_alive(place, cases, server, "behind wrong PRELOGINs")


def is_alive(place, cases, server, when):
    by, rest, _ = drive(server.port, ON, place.context())
    by.sendall(login())
    cases.check(f"the next driver {when}", is_let_in(message(rest)) and rows(rest, 7))


def no_tds(place, cases):
    """What isn't TDS, or isn't TLS that is taken: each is refused with a line that says why."""
    server = place.server()
    client = place.client(server.port)
    request = b"GET / HTTP/1.1\r\nHost: localhost\r\n\r\n"
    for name, data, why in (
            ("an HTTP request", request, "neither TDS nor TLS: it begins with the byte 0x47"),
            ("TLS 1.0 first", hello(0x0301), "client offered only unsupported versions: [301]"),
            ("TLS 1.1 first", hello(0x0302), "client offered only unsupported versions: [302 301]"),
            ("no ClientHello", b"\x16\x03\x01\0\x04\x02\0\0\0", "unexpected message"),
            ("a record that is too long", b"\x16\x03\x01\xff\xff" + bytes(100), "oversized record"),
            ("no TLS behind its first byte", b"\x16" + b"\xa5" * 100, "does not look like a TLS handshake"),
            ("TLS 1.0 inside", prelogin(ON) + packet(0x12, hello(0x0301)), "unsupported versions: [301]"),
            ("rubbish inside", prelogin(ON) + packet(0x12, b"\xa5" * 100), "does not look like a TLS handshake"),
            ("an empty packet inside", prelogin(ON) + packet(0x12, b""), "an empty packet within the TLS handshake"),
            ("a batch inside", prelogin(ON) + batch("rows 1 3"), "a packet of kind 0x01 within the TLS handshake"),
            ("TLS without its packets", prelogin(ON) + hello(0x0303), "a packet of kind 0x16 within the TLS handshake"),
            ("a second PRELOGIN", prelogin(ON) * 2, "does not look like a TLS handshake")):
        before = server.log().count(why)
        link = connect(server.port)
        link.sendall(data)
        over(link)
        cases.check(name, server.said(why, before + 1), server.log())
    for first in (*range(0, 16), 0x11, 0x13, 0x14, 0x15, 0x17, 0x47, 0x80, 0xFF):
        for mode, it in (("server", server), ("client", client)):
            link = connect(it.port)
            link.sendall(bytes([first]) + b"\xa5" * 20)
            why = f"it begins with the byte 0x{first:02x}"
            cases.check(f"the first byte {first:#x}, to the {mode}", over(link) == b"" and it.said(why), it.log())
    for protocol in (None, "http/1.1"):
        before = server.log().count('why="')
        try:
            link, _ = strict(server.port, place.context(), protocol)
            is_refused = over(link) == b""
        except OSError:
            is_refused = True
        cases.check(f"TLS first with the protocol {protocol}", is_refused and server.said('why="', before + 1), server.log())
    by, rest, _ = drive(server.port, ON, place.context())
    by.sendall(batch("rows 1 3"))
    cases.check("a batch in the place of LOGIN7", over(rest) == b"" and server.said("kind 0x01 in the place of LOGIN7"), server.log())
    is_alive(place, cases, server, "behind rubbish")


def connect_nobody(place, cases):
    """A server behind which nobody listens: its driver is told, in each way."""
    with Server(place.program) as gone:
        port = gone.port
    is_told = True
    for more in ([], ["-answer"]):
        server = place.server("-require", "none", *more, to=f"127.0.0.1:{port}")
        for asked in (OFF, ON, NOT_SUP):
            by, rest, _ = drive(server.port, asked, place.context())
            by.sendall(login())
            told = refusal(message(rest))
            cases.check(f"nobody behind it, {asked}{' -answer' * bool(more)}", told == NO_SERVER, told)
        is_told = is_told and server.said("connection refused", 3)
    client = place.client(port)
    told = refusal(in_clear(client.port, prelogin(NOT_SUP) + login())) or (0, "")
    cases.check("no server before it", told[0] == 17830 and "connection refused" in told[1], told)
    return is_told


def own_addresses(place, cases):
    """With -proxy who stands behind tdstls is told each client's own address: tdsserve, and tdsrelay where that is built."""
    to = f"127.0.0.1:{place.clear.port}"
    for name, words, line in (("tdsserve", [place.program, "127.0.0.1:0", "--proxy"], "connection 1 comes for 127.0.0.1:{}"),
                              ("tdsrelay", [built("tdsrelay")[0], "127.0.0.1:0", to, "--proxy", "127.0.0.1"],
                               "application 1 is authenticated, group 0 (from 127.0.0.1:{})")):
        if not os.path.exists(words[0]):
            print(f"encryption: {name} isn't built, so it wasn't told any address")
            continue
        with subprocess.Popen([*words, "--log", "--until-input-ends"], stdin=subprocess.PIPE, stderr=subprocess.PIPE, text=True) as clear:
            at = re.search(r"127\.0\.0\.1:\d+", clear.stderr.readline())[0]
            server = place.server("-proxy", to=at)
            by, rest, _ = drive(server.port, ON, place.context())
            by.sendall(login())
            cases.check(f"a login before {name} that is told addresses", is_let_in(message(rest)) and rows(rest, 7), server.log())
            own = by.link.getsockname()[1]
            by.close()
            clear.stdin.close()
            said = clear.stderr.read().splitlines()
            cases.check(f"{name} is told the client's own", any(it.endswith(line.format(own)) for it in said), said)
