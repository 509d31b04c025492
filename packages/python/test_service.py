"""The table of connections without a socket: who is lent what, what is refused, and what drains.

The bytes are those of test_mouktelf.py; the numbers of faults are those of mouktelf.h."""

from mouktelf import Answer, Asked, Came, Fault, Lent, MessageKind, Rest, Service, Stage, Walk, Whose

BEGUN = bytes.fromhex("0401002300000100E30B000808010000000000000000FD000000000000000000000000")
ENDED = bytes.fromhex("0401001500000200FD000000000000000000000000")
RESET = bytes.fromhex("0401001B00000100E30300120000FD000000000000000000000000")
ACKNOWLEDGED = bytes.fromhex("0401001500000100FD200000000000000000000000")
ATTENTION = bytes.fromhex("0601000800000100")
UNKNOWN, ALL_IN_USE, NOT_NOW, OUT_OF_RANGE = 34, 35, 36, 23


def refuses(number, call, *words):
    try:
        call(*words)
    except Fault as fault:
        assert fault.number == number, fault.number
    else:
        raise AssertionError(f"{call} {words} isn't refused")


def ask(service, lease):
    """A batch goes out; its packet, whose second byte has bit 8 (hexadecimal) where it asks for a full reset."""
    return service.ask_batch(lease, "get a")[1]


def one_lease_each():
    service = Service(2, 512)
    first, second = service.lease(), service.lease()
    assert (first.number, first.had, second.number, second.had) == (1, False, 2, False)
    assert first.lease != second.lease and len(service) == 2
    assert [service.holder(1), service.holder(2)] == [first.lease, second.lease]
    refuses(ALL_IN_USE, service.lease)
    assert service.give_back(second.lease) == (2, Rest.FREE, b"")
    again = service.lease()
    assert (again.number, again.had) == (2, True) and again.lease not in (first.lease, second.lease)
    refuses(ALL_IN_USE, service.lease)


def stale_leases():
    service = Service(1, 512)
    spent = service.lease().lease
    client = service.client(spent)
    client.start_batch("get a")
    # What hasn't gone out isn't cancelled at the server.
    assert service.give_back(spent) == (1, Rest.FREE, b"")
    for call in (client.send, client.cancel, client.finish, client.start_commit):
        refuses(UNKNOWN, call)
    refuses(UNKNOWN, client.hear, ENDED)
    refuses(UNKNOWN, client.heard_other)
    for call in (service.client, service.give_back, service.keep, service.cleaned, service.resume, service.abandon):
        refuses(UNKNOWN, call, spent)
    # Nor do they when somebody else has the connection.
    lease = service.lease().lease
    assert ask(service, lease)[1] == 9
    refuses(UNKNOWN, client.cancel)
    refuses(UNKNOWN, service.give_back, spent)
    assert service.client(lease).stage == Stage.READING


def drains():
    """A request is cancelled at the end of its lease: its connection isn't lent before the acknowledgement."""
    service = Service(1, 512)
    lease = service.lease().lease
    assert ask(service, lease)[1] == 1
    refuses(NOT_NOW, service.drained, 1)
    assert service.give_back(lease) == (1, Rest.DRAINING, ATTENTION)
    assert service.holder(1) == 0
    refuses(ALL_IN_USE, service.lease)
    # The answer's end crosses the cancel.
    assert service.follow(1, ENDED) == Came(0, 1, Answer.MORE, [])
    assert service.drained(1) == Rest.DRAINING
    refuses(ALL_IN_USE, service.lease)
    refuses(NOT_NOW, service.clean, 1)
    assert service.hear(1, ACKNOWLEDGED) == Came(0, 1, Answer.ACKNOWLEDGED, [])
    refuses(NOT_NOW, service.drained, 1)
    lent = service.lease()
    assert (lent.number, lent.had) == (1, True)
    assert ask(service, lent.lease)[1] == 9
    came = service.hear(1, RESET)
    assert came[:3] == (lent.lease, 2, Answer.FINISHED) and [it.kind for it in came.tokens] == [0xFD]


def kept():
    service = Service(1, 512)
    lease = service.lease().lease
    refuses(NOT_NOW, service.keep, lease)
    client = service.client(lease)
    client.start_begin()
    client.send_all()
    service.hear(1, BEGUN)
    ticket = service.keep(lease)
    refuses(UNKNOWN, client.start_commit)
    assert service.holder(1) == ticket
    refuses(ALL_IN_USE, service.lease)
    lent = service.resume(ticket)
    assert lent == Lent(lent.lease, 1, True) and service.client(lent.lease).descriptor == 1
    refuses(UNKNOWN, service.resume, ticket)
    # It goes on with its transaction: a reset that keeps that is asked for (bit 10).
    assert ask(service, lent.lease)[1] == 0x11
    service.hear(1, RESET)
    ticket = service.keep(lent.lease)
    assert service.abandon(ticket) == (1, Rest.FREE, b"")
    refuses(UNKNOWN, service.abandon, ticket)


def cleaned():
    for answer, rest, count in ((RESET, Rest.FREE, 1), (ENDED, Rest.CLOSED, 0)):
        service = Service(1, 512)
        refuses(UNKNOWN, service.clean, 1)
        lease = service.lease().lease
        refuses(NOT_NOW, service.clean, 1)
        service.give_back(lease)
        lent = service.clean(1)
        refuses(ALL_IN_USE, service.lease)
        assert ask(service, lent.lease)[1] == 9
        refuses(NOT_NOW, service.cleaned, lent.lease)
        try:
            assert service.hear(1, answer).answer == Answer.FINISHED and answer == RESET
        except Fault as fault:
            assert fault.number == 76 and answer == ENDED
        assert service.cleaned(lent.lease) == (1, rest, b"") and len(service) == count


def lost():
    """Of three connections the first goes. The seats of the others move; their leases and requests are as they were."""
    service = Service(3, 512)
    leases = [service.lease().lease for _ in range(3)]
    clients = [service.client(it) for it in leases]
    for it in leases:
        ask(service, it)
    service.lost(1)
    refuses(UNKNOWN, clients[0].cancel)
    refuses(UNKNOWN, service.connection, 1)
    refuses(UNKNOWN, service.lost, 1)
    assert len(service) == 2 and clients[2].cancel() == (Answer.ASKED, ATTENTION)
    assert clients[1].stage == Stage.READING and service.hear(2, ENDED)[:3] == (leases[1], 1, Answer.FINISHED)
    assert service.hear(3, ENDED).answer == Answer.MORE
    assert service.lease().number == 4


def asks():
    """By lease and number alone: two requests, of which the second is cancelled, and nobody is told of its answer."""
    service, walk = Service(1, 512), Walk()
    lease = service.lease().lease
    assert service.ask(lease, MessageKind.BATCH) == Asked(1, 1)
    assert service.put(lease, "get a".encode("utf-16-le")) == b""
    packet = service.finish(lease)
    assert packet[:2] == bytes([1, 1]) and packet[30:] == "get a".encode("utf-16-le")
    done = list(walk.tokens(ENDED[8:]))
    assert [service.came(1, it) for it in done] == [Whose(lease, 1, True)]
    assert service.message_ended(1) == (Answer.FINISHED, Whose(lease, 1, True))
    asked, _ = service.ask_batch(lease, "get b")
    assert asked == Asked(1, 2) and service.cancel(lease) == (Answer.ASKED, ATTENTION)
    assert service.cancel(lease) == (Answer.ALREADY, b"")
    assert [service.came(1, it).is_told for it in done] == [False]
    assert service.message_ended(1)[0] == Answer.MORE
    assert service.give_back(lease) == (1, Rest.DRAINING, b"")
    stale = (service.ask, MessageKind.BATCH), (service.put, b"a"), (service.finish,), (service.cancel,), (service.ask_batch, "a")
    for call, *words in stale:
        refuses(UNKNOWN, call, lease, *words)
    walk.restart()
    assert [service.came(1, it) for it in walk.tokens(ACKNOWLEDGED[8:])] == [Whose(0, 2, False)]
    refuses(ALL_IN_USE, service.lease)
    assert service.message_ended(1) == (Answer.ACKNOWLEDGED, Whose(0, 2, False))
    # It has drained: the next lease's first request asks for a reset, and is the third of its connection.
    lent = service.lease()
    asked, packet = service.ask_batch(lent.lease, "get a")
    assert asked == Asked(1, 3) and packet[1] == 9
    # A message that ends inside a token breaks the connection.
    refuses(75, service.message_ended, 1, True)
    assert service.client(lent.lease).stage == Stage.BROKEN


def long_requests():
    """Bodies of no byte to three packets, whole: headers of 22 bytes (MS-TDS 2.2.5.3.2) before them, 504 bytes a packet."""
    headers = bytes.fromhex("16000000 12000000 0200 0000000000000000 01000000")
    for length in (0, 1, 481, 482, 483, 986, 987, 1490, 1491):
        service = Service(1, 512)
        lease, data, wanted = service.lease().lease, headers + b"a" * length, b""
        for number in range(-(-len(data) // 504)):
            part = data[504 * number: 504 * number + 504]
            last = 504 * number + 504 >= len(data)
            wanted += bytes([3, last, *(8 + len(part)).to_bytes(2, "big"), 0, 0, number + 1, 0]) + part
        assert service.ask_all(lease, MessageKind.PROCEDURE, b"a" * length) == (Asked(1, 1), wanted), length
        assert service.hear(1, ENDED).answer == Answer.FINISHED and service.descriptor(1) == 0
        assert service.give_back(lease) == (1, Rest.FREE, b"")
        refuses(UNKNOWN, service.ask_all, lease, MessageKind.PROCEDURE, b"")
    refuses(UNKNOWN, service.descriptor, 2)


def logged_in():
    """The login agrees on other packets than were asked for: the connection's client is one of that size, and no other's is."""
    service, text = Service(2, 4096), "a" * 1000
    first, second = service.lease(), service.lease()
    service.logged_in(1, 512)
    assert len(service.ask_batch(first.lease, text)[1]) == 2022 + 8 * 5 and len(service.ask_batch(second.lease, text)[1]) == 2022 + 8
    assert service.hear(1, ENDED).answer == service.hear(2, ENDED).answer == Answer.FINISHED
    refuses(NOT_NOW, service.logged_in, 1, 4096)
    refuses(UNKNOWN, service.logged_in, 3, 4096)
    service.give_back(first.lease)
    lent = service.lease()
    packets = service.ask_batch(lent.lease, text)[1]
    assert packets[1] == 8 and int.from_bytes(packets[2:4], "big") == 512
    for size in (0, 511, 32768, 65536, -1):
        service = Service(1, 512)
        service.lease()
        refuses(OUT_OF_RANGE, service.logged_in, 1, size)


def refused():
    for size in (0, 511, 32768, 65536):
        refuses(OUT_OF_RANGE, Service, 1, size)
    refuses(OUT_OF_RANGE, Service, -1, 512)
    refuses(ALL_IN_USE, Service(0, 512).lease)
    for number in (0, 1, 2**64 - 1):
        refuses(UNKNOWN, Service(1, 512).give_back, number)
        refuses(UNKNOWN, Service(1, 512).drained, number)
    for number in (-1, 2**64):
        refuses(OUT_OF_RANGE, Service(1, 512).lost, number)


if __name__ == "__main__":
    parts = (one_lease_each, stale_leases, drains, kept, cleaned, lost, asks, long_requests, logged_in, refused)
    for it in parts:
        it()
    print(f"{len(parts)} parts of the table, all right")
