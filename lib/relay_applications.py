"""Applications in Python before a tdsrelay: one call behind another, and random ones.

What an answer's tokens are is written from MS-TDS alone.
"""

import asyncio
import random
import struct

from peers import ATTENTION, PATIENCE, batch, connect, login, message

SECONDS = 5
APPLICATIONS = 12
NO_TRANSACTION = 50003
# What a relay tells who waits for a connection that can't be opened.
NOT_OPENED = 50105


def tokens(data):
    """What a message's data tell: rows, statuses, errors, a change of transaction, and its final DONE."""
    at, rows, statuses, errors, change, done, columns = 0, [], [], [], None, None, 0
    while at < len(data):
        kind = data[at]
        if kind == 0x81:
            columns = struct.unpack_from("<H", data, at + 1)[0]
            at += 3
            for _ in range(columns):
                at += 8 + 2 * data[at + 7]
        elif kind == 0xD1:
            rows += struct.unpack_from(f"<{columns}i", data, at + 1)
            at += 1 + 4 * columns
        elif kind == 0x79:
            statuses.append(struct.unpack_from("<i", data, at + 1)[0])
            at += 5
        elif kind in (0xAA, 0xAB, 0xE3, 0xAD):
            if kind == 0xAA:
                errors.append(struct.unpack_from("<I", data, at + 3)[0])
            if kind == 0xE3 and data[at + 3] in (8, 9, 10, 18):
                change = (data[at + 3], data[at + 5:at + 5 + data[at + 4]])
            at += 3 + struct.unpack_from("<H", data, at + 1)[0]
        elif kind == 0xFD:
            done = struct.unpack_from("<H", data, at + 1)[0]
            at += 13
        else:
            raise OSError(f"token {kind:02x}")
    return rows, statuses, errors, change, done


class Application:
    """An application over a socket, one call behind another."""

    def __init__(self, port):
        self.link = connect(port)
        self.link.sendall(login())
        message(self.link)

    def send(self, data):
        self.link.sendall(data)

    def hear(self):
        return tokens(message(self.link))

    def ask(self, text, descriptor=0, status=1):
        self.send(batch(text, descriptor, status))
        return self.hear()

    def leave(self):
        self.link.close()


class Random:
    """Random applications: what they saw. Where the server goes down they may be told that no connection could be opened,
    which ends a session as a cut does."""

    def __init__(self, port, seed, goes_down=False):
        self.port, self.seed, self.goes_down = port, seed, goes_down
        self.wrong = []
        self.seen = dict(sessions=0, answers=0, cancels=0, crossed=0, idle=0, half=0, left=0)

    def check(self, place, is_so, found):
        if not is_so:
            self.wrong.append(f"{place}: {found}")

    async def message(self, reader):
        data = b""
        while True:
            head = await asyncio.wait_for(reader.readexactly(8), PATIENCE)
            data += await reader.readexactly(struct.unpack_from(">H", head, 2)[0] - 8)
            if head[1] & 1:
                return data

    async def hear(self, reader):
        told = tokens(await self.message(reader))
        if self.goes_down and told[2] == [NOT_OPENED]:
            raise ConnectionError("the relay could not open a connection to the server")
        return told

    async def session(self, place, rng, number):
        reader, writer = await asyncio.open_connection("127.0.0.1", self.port)
        writer.write(login())
        await self.message(reader)
        self.seen["sessions"] += 1
        descriptor = 0
        writer.write(batch("get a"))
        told = await self.hear(reader)
        self.check(place, told == ([], [0], [], None, 0), ("first", told))
        for turn in range(rng.randrange(1, 8)):
            first = place * 1000 + (number % 10) * 100 + turn
            text = ";".join(f"rows {first + at} 1" for at in range(rng.randrange(1, 40)))
            kind = rng.randrange(8)
            if kind <= 2:
                writer.write(batch(text, descriptor))
                rows = (await self.hear(reader))[0]
                self.check(place, rows == [first + at for at in range(text.count("rows"))], ("rows", first, rows[:3]))
                self.seen["answers"] += 1
            elif kind == 3:
                await self.cancelled(place, rng, reader, writer, batch(text, descriptor), first)
            elif kind == 4:
                writer.write(ATTENTION)
                self.check(place, (await self.hear(reader))[4] == 0x20, "idle cancel")
                self.seen["idle"] += 1
            elif kind == 5:
                writer.write(batch("se", 0, 0) + ATTENTION)
                self.check(place, (await self.hear(reader))[4] == 0x20, "half")
                self.seen["half"] += 1
            elif kind == 6:
                descriptor = await self.settles(place, rng, reader, writer, descriptor)
            else:
                # It leaves behind a part of its request, or in the middle of its answer.
                whole = batch(text, descriptor)
                cut = rng.randrange(len(whole) + 1)
                writer.write(whole[:cut])
                await writer.drain()
                if cut == len(whole) and rng.random() < 0.5:
                    await reader.read(rng.randrange(1, 60))
                self.seen["left"] += 1
                writer.transport.abort()
                return
        writer.close()

    async def cancelled(self, place, rng, reader, writer, request, first):
        """A cancel, at once or a little later: it may meet the answer, or cross its end."""
        writer.write(request)
        if rng.random() < 0.7:
            await asyncio.sleep(rng.random() * 0.01)
        writer.write(ATTENTION)
        self.seen["cancels"] += 1
        for part in range(3):
            rows, _, _, _, done = await self.hear(reader)
            self.check(place, rows == [first + at for at in range(len(rows))], ("cancelled", first, rows[:3]))
            if done & 0x20:
                self.seen["crossed"] += part
                return
        self.check(place, False, "no acknowledgement")

    async def settles(self, place, rng, reader, writer, descriptor):
        text = rng.choice(["begin", "commit", "rollback", "set a 7"])
        writer.write(batch(text, descriptor))
        _, _, errors, change, _ = await self.hear(reader)
        if text in ("commit", "rollback"):
            self.check(place, (errors == [NO_TRANSACTION]) == (descriptor == 0), (text, descriptor, errors))
            return 0
        if text == "begin" and descriptor == 0:
            self.check(place, bool(change) and change[0] == 8, ("begin", errors, change))
            return struct.unpack("<Q", change[1])[0] if change else 0
        return descriptor

    async def application(self, place):
        rng = random.Random(self.seed * 1000 + place)
        until = asyncio.get_running_loop().time() + SECONDS
        number = 0
        while asyncio.get_running_loop().time() < until and not self.wrong:
            number += 1
            try:
                await self.session(place, rng, number)
            except (OSError, asyncio.IncompleteReadError, asyncio.TimeoutError) as error:
                self.wrong.append(f"{place}: {error!r}")

    async def run(self):
        await asyncio.gather(*(self.application(place) for place in range(APPLICATIONS)))
