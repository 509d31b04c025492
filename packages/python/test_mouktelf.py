"""What the package does without a socket: an exchange by known bytes, what is refused; and each schedule that is named, where
the library has the player, as a release's has.

The bytes are those of examples/c/bytes.h, and stand in docs/PROTOCOL.md."""

import sys

from mouktelf import (
    Answer, Change, Client, Columns, Done, Fault, Heard, Message, MessageKind, NotPlayed, Place, Refused, Reset, Row, Stage, StrictClient,
    Tells, Walk, packets_of, play,
)

BEGIN = bytes.fromhex("0E010022000001001600000012000000020000000000000000000100000005000000")
BEGUN = bytes.fromhex("0401002300000100E30B000808010000000000000000FD000000000000000000000000")
SAID = bytes.fromhex("0400002800000100AB100050C30000010001006100000000000000FD010000000000000000000000")
ROWS = bytes.fromhex("0400002C0000010081010000000000000038016E00D105000000D106000000FD110000000200000000000000")
ENDED = bytes.fromhex("0401001500000200FD000000000000000000000000")
ACKNOWLEDGED = bytes.fromhex("0401001500000100FD200000000000000000000000")


def refuses(number, call, *words):
    try:
        call(*words)
    except Fault as fault:
        assert fault.number == number, fault.number
    else:
        raise AssertionError(f"{call} {words} isn't refused")


def exchange():
    client = StrictClient(512)
    client.start_begin()
    assert client.send() == (Answer.LAST, BEGIN)
    taken = client.take(BEGUN)
    assert taken.answer == Answer.FINISHED and taken.tokens[0] == Change(8, 1) and client.descriptor == 1
    client.start_batch("rows 5 2")
    client.send_all()
    packets, rest = packets_of(ROWS + ENDED + SAID[:7], 512)
    assert packets == [ROWS, ENDED] and rest == SAID[:7]
    assert client.take(ROWS).tokens == [Columns(1), Row((5,)), Row((6,)), Done(0x11, 2)]
    assert client.take(ENDED).answer == Answer.FINISHED and client.stage == Stage.IDLE


def cancelled():
    client = StrictClient(512)
    client.start_batch("say a")
    client.send_all()
    assert client.take(SAID).tokens[0] == Message(False, 50000, 1, 0, 0, "a")
    assert client.cancel() == (Answer.ASKED, bytes.fromhex("0601000800000100"))
    assert client.cancel() == (Answer.ALREADY, b"")
    crossed = client.take(ENDED)
    assert crossed.answer == Answer.MORE and crossed.tokens == []
    assert client.take(ACKNOWLEDGED).answer == Answer.ACKNOWLEDGED and client.stage == Stage.IDLE


def streamed():
    """A batch of 4,000 bytes goes out in 8 packets of 512; its answer, of any server, is heard token by token."""
    client, body = Client(512), (b"g\0e\0t\0" * 667)[:4000]
    client.start_message(MessageKind.BATCH)
    parts = b"".join(client.put(body[at: at + 7]) for at in range(0, len(body), 7)) + client.finish()
    assert len(parts) == 8 * 8 + 22 + 4000 and [parts[at + 1] for at in (0, 512, 7 * 512)] == [0, 0, 1]
    walk = Walk()
    begun = bytes.fromhex("E30B0008080500000000000000" + "00") + ENDED[8:]
    assert [client.heard(it) for it in walk.tokens(begun)] == [True, True]
    assert client.message_ended() == Answer.FINISHED and client.descriptor == 5
    client.start_message(MessageKind.PROCEDURE)
    client.finish()
    client.cancel()
    walk.restart()
    assert [client.heard(it) for it in walk.tokens(ACKNOWLEDGED[8:])] == [False]
    assert client.message_ended() == Answer.ACKNOWLEDGED
    refuses(32, client.put, b"a")


def asks_whole():
    """A message of one packet, and one that isn't: 512 bytes have room for 8 of a header, 22 of ALL_HEADERS, and 482."""
    for count, sizes in ((0, [30]), (482, [512]), (483, [512, 9]), (968, [512, 494])):
        client = Client(512)
        packets = client.ask(MessageKind.BATCH, bytes([7]) * count)
        found = []
        while packets:
            size = int.from_bytes(packets[2:4], "big")
            found, packets = [*found, packets[:size]], packets[size:]
        assert [*map(len, found)] == sizes and [it[1] for it in found] == [0] * (len(sizes) - 1) + [1]
        assert b"".join(it[8:] for it in found)[22:] == bytes([7]) * count and client.stage == Stage.READING
        refuses(31, client.ask, MessageKind.BATCH, b"")


def asked():
    client = Client(512)
    client.start_batch("say a")
    client.send_all()
    return client


def heard_at_once():
    """A packet in one call: what a walk finds and the client hears, in any pieces, also where that is more than goes into one."""
    begun = bytes.fromhex("E30B0008080500000000000000" + "00") + ENDED[8:]
    for cut in range(len(begun)):
        client = asked()
        first, last = client.hear_data(begun[:cut], False), client.hear_data(begun[cut:], True)
        assert (first.answer, last.answer, client.descriptor) == (Answer.MORE, Answer.FINISHED, 5)
        assert first.tokens + last.tokens == list(Walk().tokens(begun))
    many = b"\x79\1\0\0\0" * 300 + ENDED[8:]
    client = asked()
    assert client.hear(b"\4\1" + bytes(6) + many) == Heard(Answer.FINISHED, list(Walk().tokens(many)))
    assert client.stage == Stage.IDLE
    client.start_batch("say a")
    client.send_all()
    assert client.follow(b"\4\1" + bytes(6) + many) == Answer.FINISHED and client.stage == Stage.IDLE
    refuses(24, client.follow, b"\4\1")
    client.start_batch("say a")
    client.send_all()
    told = client.hear(SAID).tokens[0]
    assert (told.tells, told.kind, told.number, told.state, told.text) == (Tells.MESSAGE, 0xAB, 50000, 1, Place(11, 2))
    client.cancel()
    assert client.hear(ENDED) == Heard(Answer.MORE, []) and client.hear(ACKNOWLEDGED) == Heard(Answer.ACKNOWLEDGED, [])
    refuses(24, client.hear, b"\4\1")


def faults_of_a_peer():
    """A peer's fault is a peer's also at a message's end, and each number has a text of its own."""
    for data, number, tokens in ((b"\x79\1\0\0\0\0", 71, 1), (b"\x79\1", 75, 0)):
        client = asked()
        try:
            client.hear_data(data, True)
        except Fault as why:
            assert (why.number, why.is_peer, len(why.tokens), client.stage) == (number, True, tokens, Stage.BROKEN)
            assert isinstance(why, Refused) == (number == 71) and (number != 71 or (why.at, why.byte) == (5, 0))
        else:
            raise AssertionError(f"{number} is wanted")
    client = Client(512)
    client.mark_reset(Reset.FULL)
    client.start_batch("say a")
    client.send_all()
    try:
        client.hear(ENDED)
    except Fault as why:
        assert (why.number, why.is_peer, client.stage) == (76, True, Stage.BROKEN)
    else:
        raise AssertionError("its answer tells of no reset")
    numbers = (*range(20, 27), *range(31, 37), *range(41, 47), *range(51, 58), *range(61, 70), *range(71, 77))
    texts = {str(Fault(it)).partition(": ")[2] for it in numbers}
    assert len(texts) == len(numbers) and "see mouktelf.h" not in texts
    assert [it for it in numbers if Fault(it).is_peer] == [it for it in numbers if it > 40]


def is_linear():
    """16,000 packets in one piece."""
    packet = b"\4\0\0\x23" + bytes(31)
    packets, rest = packets_of(packet * 16_000 + packet[:7], 512)
    assert len(packets) == 16_000 and set(packets) == {packet} and rest == packet[:7]


def by_a_reader_of_its_own():
    client = asked()
    assert client.heard_change(8, 7) and client.heard_other() and client.heard_done(0xFD, 0)
    assert client.message_ended() == Answer.FINISHED and client.descriptor == 7


def refused():
    for size in (0, 511, 32768, 65536, -1):
        refuses(23, Client, size)
    client = StrictClient(512)
    refuses(23, client.start_batch, "")
    refuses(23, client.start_batch, "a" * 2001)
    refuses(23, client.start_begin, 6)
    refuses(23, client.start_begin, -1)
    refuses(32, client.send)
    client.start_batch("say a")
    refuses(31, client.start_batch, "say b")
    refuses(31, client.mark_reset, Reset.FULL)
    assert client.cancel() == (Answer.UNSENT, b"")
    refuses(61, client.take, ENDED)
    assert client.stage == Stage.BROKEN
    refuses(33, client.start_batch, "say a")
    refuses(41, packets_of, b"\xff" * 8, 512)
    refuses(24, StrictClient(512).take, b"")


def schedules(names):
    for name in names:
        with open(name, "rb") as it, open(name[: -len("json")] + "txt", encoding="utf-8") as wanted:
            assert play(it.read()) == wanted.read(), name
    assert play({"version": 1, "packet_size": 512, "max": 1, "events": [["lease"]]}).startswith("1 leased 1 on 1 new\n")
    try:
        play("[")
    except NotPlayed as why:
        assert str(why) == "error: json"
    else:
        raise AssertionError("it is no schedule")


if __name__ == "__main__":
    exchange()
    cancelled()
    streamed()
    asks_whole()
    heard_at_once()
    faults_of_a_peer()
    is_linear()
    by_a_reader_of_its_own()
    refused()
    if sys.argv[1:]:
        schedules(sys.argv[1:])
    print(f"{len(sys.argv) - 1} schedules, and all else is right")
