"""Scenes of tests/relay: logins that can't be shared, in one leg and in several, and several servers."""

import socket
import struct
import time

from peers import ATTENTION, PATIENCE, Relay, batch, connect, login, message, packet, with_features
from relay_applications import Application, tokens
from relay_servers import DONE, Before, ack, federated, routing, sspi, until_some

REFUSED, LOST = 50100, 50109


def named(**places):
    """A LOGIN7 in which these bits are set of bytes of its data."""
    data = bytearray(login())
    for place, bits in places.items():
        data[8 + int(place[1:])] |= bits
    return bytes(data)


def closed(link, seconds=PATIENCE):
    """Whether the other end has closed. A thread that serves this link may have met that first, and closed it."""
    try:
        link.settimeout(seconds)
        while link.recv(4096):
            pass
        return True
    except socket.timeout:
        return False
    except OSError:
        return True


def comes_to(server, count):
    """Whether so many connections are there after a while, and no more."""
    return bool(until_some(lambda: len(server.sockets()) == count))


def alone(program, cases, server):
    """Logins that can't be shared: each has a connection of its own, which ends with it."""
    before = len(server.sockets())
    with Relay(program, server, 1) as relay:
        links = []
        for what, places in (("integrated", dict(b25=0x80)), ("new password", dict(b27=1)), ("attached", dict(b84=1))):
            for number in range(2):
                link = connect(relay.port)
                link.sendall(named(**places))
                cases.check(f"a login that isn't shared is authenticated: {what} {number}", 0xAD in message(link))
                links.append(link)
        cases.check("each has a connection of its own", comes_to(server, before + len(links)))
        for number, link in enumerate(links):
            link.sendall(batch(f"rows {number} 1"))
        told = [tokens(message(link))[0] for link in links]
        cases.check("each gets its rows", told == [[number] for number in range(len(links))], told)
        links[0].sendall(batch("set a 3"))
        message(links[0])
        links[0].sendall(batch("get a", 0, 9))
        told = tokens(message(links[0]))
        cases.check("a reset of its own is told", told[1] == [0] and told[3] == (18, b""), told)
        links[0].sendall(ATTENTION)
        told = tokens(message(links[0]))
        cases.check("an attention with nothing underway", told[4] == 0x20, told)
        for link in links[:3]:
            link.close()
        cases.check("a connection ends with its application", comes_to(server, before + 3), len(server.sockets()))
        links[3].sendall(batch("rows 1 1"))
        cases.check("the others stay", tokens(message(links[3]))[0] == [1])
        for link in links[3:]:
            link.close()
        cases.check("and end then", comes_to(server, before), len(server.sockets()))


def legs(program, cases, server):
    """A login in several legs, SSPI or federated; what is asked for of features; who ends in the middle."""
    two = [sspi(b"one" * 3000), sspi(b"two")]
    with Before(server, two) as before, Relay(program, before, 1) as relay:
        link = connect(relay.port)
        link.sendall(named(b25=0x80))
        told = message(link)
        cases.check("the server's leg", told == two[0], told[:20])
        answer = b"mine" * 2000
        link.sendall(packet(0x11, answer[:4000], 0))
        link.sendall(packet(0x11, answer[4000:]))
        told = message(link)
        cases.check("the second one", told == two[1], told[:20])
        link.sendall(packet(0x11, b"last"))
        cases.check("it is authenticated behind its legs", 0xAD in message(link))
        cases.check("the legs came whole", before.legs == [(0x11, answer), (0x11, b"last")], before.legs)
        link.sendall(batch("rows 7 1"))
        cases.check("and gets its rows", tokens(message(link))[0] == [7])
        before.drop()
        time.sleep(0.5)
        link.sendall(batch("rows 8 1"))
        cases.check("an application is told of its connection's end, and ends", tokens(message(link))[2] == [LOST] and closed(link))
        # Who ends in the middle, who says what is no leg, and a server that ends in the middle.
        link = connect(relay.port)
        link.sendall(named(b25=0x80))
        message(link)
        far = before.links[-1]
        link.close()
        cases.check("its connection ends too", closed(far))
        link = connect(relay.port)
        link.sendall(named(b25=0x80))
        message(link)
        link.sendall(batch("rows 1 1"))
        cases.check("what is no leg ends it", closed(link))
        link = connect(relay.port)
        link.sendall(named(b25=0x80))
        message(link)
        before.drop()
        told = tokens(message(link))
        cases.check("a server that ends in the middle", told[2] == [REFUSED] and closed(link), told)
    with Before(server, [federated(b"where")]) as before, Relay(program, before, 1) as relay:
        link = connect(relay.port)
        link.sendall(with_features((1, b""), (2, b"\x03\x01"), (10, b"\x01")))
        cases.check("a federated login's leg", message(link) == federated(b"where"))
        link.sendall(packet(8, b"token"))
        cases.check("it is authenticated behind its token", 0xAD in message(link))
        cases.check("the token came", before.legs == [(8, b"token")], before.legs)
        cases.check("no other feature is asked for",
                    before.logins[0] == with_features((2, b"\x03\x01"))[8:], before.logins[0].hex())
        other = connect(relay.port)
        other.sendall(with_features((1, b""), (4, b"\x01")))
        message(other)
        other.sendall(packet(8, b"token"))
        until_some(lambda: len(before.logins) >= 2)
        cases.check("a login with other features asks for none", before.logins[1][27] & 0x10 == 0)
    with Before(server, (), error(18456)) as before, Relay(program, before, 1) as relay:
        link = connect(relay.port)
        link.sendall(named(b25=0x80))
        told = tokens(message(link))
        cases.check("a refusal is the server's own", told[2] == [18456] and closed(link), told)


def error(number):
    """ERROR of this number, then DONE (MS-TDS 2.2.7.10)."""
    body = struct.pack("<IBBHBBI", number, 1, 14, 0, 0, 0, 1)
    return b"\xaa" + struct.pack("<H", len(body)) + body + b"\xfd\x02" + bytes(11)


def limited(program, cases, server):
    with Relay(program, server, 1, "--alone", "1") as relay:
        first, second = connect(relay.port), connect(relay.port)
        first.sendall(named(b25=0x80))
        message(first)
        second.sendall(named(b25=0x80))
        told = tokens(message(second))
        cases.check("one too many that can't be shared", told[2] == [REFUSED] and closed(second), told)
        cases.check("one that is shared", Application(relay.port).ask("rows 1 1")[0] == [1])


def several(program, cases, server):
    """Several servers in order of preference, and one that names another one."""
    with Before(server) as one, Before(server) as two, Relay(program, one, 4, others=[two]) as relay:
        first = Application(relay.port)
        cases.check("the first server is preferred", first.ask("rows 1 1")[0] == [1] and one.come and not two.come)
        one.stop()
        time.sleep(0.5)
        cases.check("an application is told of its connection's end", first.ask("rows 2 1")[2] == [LOST] and closed(first.link))
        second = Application(relay.port)
        cases.check("the next server takes over", second.ask("rows 2 1")[0] == [2] and two.come)
    with Before(server) as one, Before(server) as two, Relay(program, one, 4, "--wait", "0", others=[two]) as relay:
        one.stop()
        first = Application(relay.port)
        cases.check("the first one is away from the beginning", first.ask("rows 1 1")[0] == [1] and two.come)
        two.stop()
        link = connect(relay.port)
        data = bytearray(login())
        data[8 + 24] |= 1
        link.sendall(bytes(data))
        told = tokens(message(link))
        cases.check("no server is left", told[2] == [REFUSED], told)
    with Before(server) as last, Before(server, (), routing("127.0.0.1", last.port) + ack() + DONE) as first:
        with Relay(program, first, 4) as relay:
            link = connect(relay.port)
            link.sendall(login())
            answer = message(link)
            cases.check("a routing is followed", last.come == 1 and first.come == 1, (first.come, last.come))
            cases.check("and isn't told", 0xAD in answer and routing("127.0.0.1", last.port) not in answer)
            link.sendall(batch("rows 3 1"))
            cases.check("the other server answers", tokens(message(link))[0] == [3])
            both = Application(relay.port), Application(relay.port)
            told = [it.ask("rows 4 1")[0] for it in both]
            cases.check("later connections are routed too", told == [[4], [4]] and last.come == first.come >= 2)
    with Before(server, (), routing("no.such.host.invalid", 1) + ack() + DONE) as first, Relay(program, first, 4) as relay:
        link = connect(relay.port)
        link.sendall(login())
        told = tokens(message(link))
        cases.check("a routing that leads nowhere", told[2] == [REFUSED], told)


def silence(program, cases, server):
    """One of a group's connections has died: the free ones are checked, and those that are silent closed."""
    with Before(server) as before, Relay(program, before, 4, "--cancel", "1") as relay:
        held = [Application(relay.port) for _ in range(3)]
        told = [it.ask(f"rows 7{number} 1")[0] for number, it in enumerate(held)]
        cases.check("three connections", told == [[70], [71], [72]], told)
        links = [before.link_of(f"rows 7{number} 1") for number in range(3)]
        held[1].leave()
        held[2].leave()
        time.sleep(0.5)
        before.is_deaf = True
        links[0].shutdown(socket.SHUT_RDWR)
        time.sleep(0.5)
        cases.check("its application is told", held[0].ask("rows 8 1")[2] == [LOST] and closed(held[0].link))
        cases.check("the free ones are found dead", all(closed(link) for link in links[1:]))
        before.is_deaf = False
        cases.check("new ones are opened", Application(relay.port).ask("rows 2 1")[0] == [2])
