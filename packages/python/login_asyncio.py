"""The same as login.py with asyncio: a task that asks is cancelled as any other one, and its connection lives on.

    tdsserve 127.0.0.1:1433 & python3 login_asyncio.py 1433"""

import asyncio
import sys

from login import COLMETADATA, NBCROW, ROW, SIZE, first_of
from mouktelf import Answer, Client, Outgoing, Stage, Tells, is_let_in, login, packets_of


class Connection:
    """One connection. `ask` is for one task at a time; where that is cancelled, so is what it asked for."""

    @classmethod
    async def open(cls, port, name):
        self = cls()
        self.reader, self.writer = await asyncio.open_connection("127.0.0.1", port)
        # `write` of an asyncio writer keeps what the socket doesn't take yet, so no block waits.
        self.client, self.outgoing, self.came, self.packets = Client(SIZE), Outgoing(self.writer.write), b"", []
        self.writer.write(login(name, SIZE))
        if not is_let_in(await self.packet()):
            raise ConnectionError("the server let nobody in")
        return self

    async def packet(self):
        while not self.packets:
            piece = await self.reader.read(65536)
            if not piece:
                self.client.lost()
                raise ConnectionError("the server has gone")
            self.packets, self.came = packets_of(self.came + piece, SIZE)
        return self.packets.pop(0)

    async def ask(self, start, *words):
        """Asks, and gives the tokens of the answer, and the data that they stand in."""
        with self.outgoing:
            start(*words)
            self.outgoing.put(self.client.send_all())
        told, data, answer = [], b"", Answer.MORE
        try:
            while answer == Answer.MORE:
                packet = await self.packet()
                data += packet[8:]
                answer, tokens = self.client.hear(packet)
                told += tokens
            return told, data
        except asyncio.CancelledError:
            # The answer's rest is the connection's, and none of it is told.
            with self.outgoing:
                answer, attention = self.client.cancel()
                self.outgoing.put(attention)
            while self.client.stage == Stage.CANCELLING:
                self.client.hear(await self.packet())
            raise


def show(tokens, data):
    columns = b""
    for token in tokens:
        own = data[token.start: token.start + token.length]
        if token.tells == Tells.MESSAGE:
            text = data[token.text.start: token.text.start + token.text.length]
            print("info" if token.kind == 0xAB else "error", text.decode("utf-16-le"))
        elif token.kind == COLMETADATA:
            columns = own
        elif token.kind in (ROW, NBCROW):
            print("row", first_of(columns, own))
    print("finished")


async def main(port):
    it = await Connection.open(port, "sa")
    print("logged in")
    show(*await it.ask(it.client.start_begin))
    show(*await it.ask(it.client.start_batch, "set a 5;say hello;rows 7 2"))
    task = asyncio.create_task(it.ask(it.client.start_batch, "rows 0 64;rows 0 64;rows 0 64"))
    while it.client.stage != Stage.READING:
        await asyncio.sleep(0)
    task.cancel()
    try:
        await task
    except asyncio.CancelledError:
        print("cancelled")
    print("in a transaction:", "yes" if it.client.descriptor else "no")
    show(*await it.ask(it.client.start_commit))
    print("in a transaction:", "yes" if it.client.descriptor else "no")
    it.writer.close()


if __name__ == "__main__":
    asyncio.run(main(int(sys.argv[1]) if len(sys.argv) > 1 else 1433))
