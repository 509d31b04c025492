"""Over a socket: logs in to a server of the batch language (tdsserve, also with --real), begins a transaction, is given rows,
cancels a batch in its middle, and commits.

    tdsserve 127.0.0.1:1433 & python3 login.py 1433"""

import socket
import sys

from mouktelf import Answer, Client, Outgoing, Tells, is_let_in, login, packets_of

SIZE = 4096
COLMETADATA, ROW, NBCROW, INTN = 0x81, 0xD1, 0xD2, 0x26


def first_of(columns, row):
    """The first value of a row, a whole number of four bytes: a walk says where rows stand, and values are yours to read (MS-TDS 2.2.7)."""
    nulls = 0 if row[0] == ROW else (int.from_bytes(columns[1:3], "little") + 7) // 8
    at = 1 + nulls + (columns[9] == INTN)
    return int.from_bytes(row[at: at + 4], "little", signed=True)


class Connection:
    def __init__(self, port):
        self.socket = socket.create_connection(("127.0.0.1", port))
        self.client, self.outgoing = Client(SIZE), Outgoing(self.socket.sendall)
        self.came, self.packets = b"", []

    def packet(self):
        while not self.packets:
            piece = self.socket.recv(65536)
            if not piece:
                self.client.lost()
                sys.exit("the server has gone")
            self.packets, self.came = packets_of(self.came + piece, SIZE)
        return self.packets.pop(0)

    def log_in(self, name):
        self.socket.sendall(login(name, SIZE))
        if not is_let_in(self.packet()):
            sys.exit("the server let nobody in")
        print("logged in")

    def ask(self, start, *words):
        with self.outgoing:
            start(*words)
            self.outgoing.put(self.client.send_all())

    def cancel(self):
        """Any thread may: its bytes go out behind the request's."""
        with self.outgoing:
            answer, attention = self.client.cancel()
            self.outgoing.put(attention)
        return answer

    def hear(self):
        """Hears packets until the request is settled, and shows what is told."""
        data, columns, answer = b"", b"", Answer.MORE
        while answer == Answer.MORE:
            packet = self.packet()
            data += packet[8:]
            with self.outgoing:
                answer, tokens = self.client.hear(packet)
            for token in tokens:
                own = data[token.start: token.start + token.length]
                if token.tells == Tells.MESSAGE:
                    text = data[token.text.start: token.text.start + token.text.length]
                    print("info" if token.kind == 0xAB else "error", text.decode("utf-16-le"))
                elif token.kind == COLMETADATA:
                    columns = own
                elif token.kind in (ROW, NBCROW):
                    print("row", first_of(columns, own))
        print("finished" if answer == Answer.FINISHED else "cancelled")


def main(port):
    it = Connection(port)
    it.log_in("sa")
    it.ask(it.client.start_begin)
    it.hear()
    it.ask(it.client.start_batch, "set a 5;say hello;rows 7 2")
    it.hear()
    it.ask(it.client.start_batch, "rows 0 64;rows 0 64;rows 0 64")
    assert it.cancel() == Answer.ASKED
    it.hear()
    print("in a transaction:", "yes" if it.client.descriptor else "no")
    it.ask(it.client.start_commit)
    it.hear()
    print("in a transaction:", "yes" if it.client.descriptor else "no")


if __name__ == "__main__":
    main(int(sys.argv[1]) if len(sys.argv) > 1 else 1433)
