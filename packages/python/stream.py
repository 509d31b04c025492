"""Streams a table of ten types, and cancels it in the middle, from a second thread: tdsserve --real 127.0.0.1:1433 & python3 stream.py 1433"""

import socket
import sys
import threading

from mouktelf import Answer, Client, Outgoing, is_let_in, login, packets_of
from mouktelf.rows import COLMETADATA, NBCROW, ROW, Columns

TABLE = ("select cast(1 as bit),cast(7 as tinyint),cast(8 as smallint),cast(9 as int),cast(10 as bigint),cast(1.50 as decimal(9,2)),"
         "cast('a' as nvarchar(9)),cast('b' as varchar(9)),cast(0x0102 as varbinary(9)),cast('2026-11-28' as date);") * 4
SOCKET = socket.create_connection(("127.0.0.1", int(sys.argv[1])))
CLIENT, OUTGOING = Client(4096), Outgoing(SOCKET.sendall)


def all_packets(rest=b""):
    while True:
        packets, rest = packets_of(rest + SOCKET.recv(65536), 4096)
        yield from packets


def ask(text):
    with OUTGOING:
        CLIENT.start_batch(text)
        OUTGOING.put(CLIENT.send_all())


def cancel():
    with OUTGOING:
        OUTGOING.put(CLIENT.cancel()[1])


def rows(packets):
    """The rows of the answer as they come, and at last what became of it."""
    data, columns, answer = b"", None, Answer.MORE
    while answer == Answer.MORE:
        packet = next(packets)
        data += packet[8:]
        with OUTGOING:
            answer, tokens = CLIENT.hear(packet)
        for token in tokens:
            own = data[token.start: token.start + token.length]
            columns = Columns(own) if token.kind == COLMETADATA else columns
            if token.kind in (ROW, NBCROW):
                yield columns, own
    print("finished" if answer == Answer.FINISHED else "cancelled")


SOCKET.sendall(login("sa", 4096))
PACKETS = all_packets()
assert is_let_in(next(PACKETS))
for batch, most in ((TABLE + "rows 0 64;" * 64, 3), ("rows 7 2", 9)):
    ask(batch)
    for count, (its, row) in enumerate(rows(PACKETS), 1):
        if count <= most:
            print(*(its.values(row) if "-v" in sys.argv else ("-" if null else length for _, length, null in its.places(row))))
        if count == most:
            thread = threading.Thread(target=cancel)
            thread.start()
            thread.join()
