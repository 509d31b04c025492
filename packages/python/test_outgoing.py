"""The order of bytes: a request's packets, then its cancel's attention, also where the write of the first stalls and the cancel comes
from another thread; and that the wrong way, each call under a lock and the writes not, is seen, and what it does.

The server here does what one does with bytes: it answers a request that has come whole, and acknowledges an attention."""

import struct
import threading

from mouktelf import Answer, Client, Outgoing, Stage, Tells

SIZE = 512


def packet(kind, data):
    return struct.pack(">BBHHBB", kind, 1, 8 + len(data), 0, 1, 0) + data


def answer_of(text):
    """An INFO that says which request this is the answer of, and the last DONE."""
    said = text[-1:].encode("utf-16-le")
    info = b"\xAB" + struct.pack("<HiBBH", 16, 1, 1, 0, 1) + said + bytes(6)
    return packet(4, info + b"\xFD" + bytes(12))


class Server:
    """What a server gives for the bytes that it was sent, message by message: a cancelled request isn't answered."""

    def __init__(self):
        self.wire, self.gives, self.text = b"", [], b""

    def write(self, data):
        self.wire += data
        while len(self.wire) >= 8 and len(self.wire) >= int.from_bytes(self.wire[2:4], "big"):
            length = int.from_bytes(self.wire[2:4], "big")
            head, body, self.wire = self.wire[:8], self.wire[8:length], self.wire[length:]
            self.message(head[0], head[1] & 1, body)

    def message(self, kind, is_last, body):
        if kind == 6:
            # What has come and isn't answered yet is answered no more.
            self.text, waits = b"", self.gives and self.gives[-1][0] == "answer"
            if waits:
                self.gives.pop()
            self.gives.append(("acknowledged", packet(4, b"\xFD\x20\0" + bytes(10))))
            return
        self.text += body
        if is_last:
            self.gives.append(("answer", answer_of(self.text[22:].decode("utf-16-le"))))
            self.text = b""


class Slow:
    """A socket whose first write stalls until it may go on; it keeps the bytes in the order in which they went."""

    def __init__(self):
        self.bytes, self.begun, self.may = b"", threading.Event(), threading.Event()

    def write(self, data):
        self.begun.set()
        assert self.may.wait(60)
        self.bytes += data


def kinds(wire):
    """The packets on the wire: their types."""
    found = []
    while wire:
        found.append(wire[0])
        wire = wire[int.from_bytes(wire[2:4], "big"):]
    return found


def asks(client, text):
    client.start_batch(text)
    return client.send_all()


def heard(client, gives):
    """Takes what the server gives until the request is settled: which requests' answers were told, and the end."""
    told, answer = "", Answer.MORE
    while answer == Answer.MORE:
        data = gives.pop(0)[1]
        answer, tokens = client.hear(data)
        told += "".join(data[8 + it.text.start: 10 + it.text.start].decode("utf-16-le") for it in tokens if it.tells == Tells.MESSAGE)
    return told, answer


def right_way():
    client, slow, server = Client(SIZE), Slow(), Server()
    outgoing, answers = Outgoing(slow.write), []

    def request():
        with outgoing:
            outgoing.put(asks(client, "a" * 1999 + "A"))

    def cancel():
        with outgoing:
            answer, attention = client.cancel()
            outgoing.put(attention)
        answers.append(answer)

    first, second = threading.Thread(target=request), threading.Thread(target=cancel)
    first.start()
    assert slow.begun.wait(60)
    second.start()
    # The cancel doesn't wait behind the write, which stalls all the while.
    second.join(60)
    assert answers == [Answer.ASKED] and not second.is_alive() and first.is_alive() and slow.bytes == b""
    slow.may.set()
    first.join(60)
    assert kinds(slow.bytes) == [1] * 8 + [6]
    server.write(slow.bytes)
    assert heard(client, server.gives) == ("", Answer.ACKNOWLEDGED)
    with outgoing:
        outgoing.put(asks(client, "B"))
    server.write(slow.bytes[-32:])
    assert heard(client, server.gives) == ("B", Answer.FINISHED) and server.gives == []


def wrong_way():
    """Each call under a lock, and the writes where they happen to come: the attention first."""
    client, slow, fast, lock = Client(SIZE), Slow(), b"", threading.Lock()

    def request():
        with lock:
            data = asks(client, "a" * 1999 + "A")
        slow.write(data)

    first = threading.Thread(target=request)
    first.start()
    assert slow.begun.wait(60)
    with lock:
        _, attention = client.cancel()
    fast += attention
    slow.may.set()
    first.join(60)
    wire, server = fast + slow.bytes, Server()
    assert kinds(wire) == [6] + [1] * 8, "the wrong way isn't seen"
    server.write(wire)
    # The server had nothing to cancel: it acknowledges, and then answers. Nobody is told of a fault, and the next request of A's rows.
    acknowledged = server.gives.pop(0)[1]
    assert client.hear(acknowledged).answer == Answer.ACKNOWLEDGED and client.stage == Stage.IDLE
    server.write(asks(client, "B"))
    assert heard(client, server.gives) == ("A", Answer.FINISHED)


def many():
    """Eight threads put 200 numbers each, in the order of the lock; a writer that yields keeps that order."""
    written, order = [], []

    def write(data):
        threading.Event().wait(0)
        written.append(data)

    outgoing = Outgoing(write)

    def puts(thread):
        for it in range(200):
            with outgoing:
                order.append(struct.pack(">HH", thread, it))
                outgoing.put(order[-1])

    threads = [threading.Thread(target=puts, args=(it,)) for it in range(8)]
    for it in threads:
        it.start()
    for it in threads:
        it.join()
    assert b"".join(written) == b"".join(order) and len(order) == 1600


def failed():
    """A write that fails is told to whoever writes, and to each later one."""
    def write(data):
        raise ConnectionResetError(data)

    outgoing = Outgoing(write)
    for data in (b"a", b"b", b""):
        try:
            with outgoing:
                outgoing.put(data)
        except ConnectionResetError as why:
            assert why.args == (b"a",)
        else:
            raise AssertionError("it failed")
    try:
        outgoing.put(b"c")
    except RuntimeError:
        pass
    else:
        raise AssertionError("outside of a block")


if __name__ == "__main__":
    parts = (right_way, wrong_way, many, failed)
    for it in parts:
        it()
    print(f"{len(parts)} parts of what goes out, all right")
