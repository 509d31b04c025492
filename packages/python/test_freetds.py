"""10,000 random rows as test_values.py makes them, a ROW or an NBCROW each, by FreeTDS: a server here sends them, pymssql (of Debian,
python3-pymssql) reads them, and each value is what `mouktelf.rows` reads of the same bytes. Where pymssql isn't there, nothing is compared.

DB-Library gives what has ticks to 1/300 s, and a datetime with its offset as it keeps one: ticks, days from 1900 on, minutes. A time
that it would round up to 24 hours, and a text of which a part ends inside a character, it can't read: neither is sent.

usage: test_freetds.py [SEED]"""

import contextlib
import datetime
import socket
import struct
import sys
import threading

from mouktelf.rows import Columns
from tds_server import BATCH, COUNT, LOGIN, PRELOGIN, PRELOGIN_ANSWER, done, login_answer, packet
from test_values import COLUMNS, ROWS, Random, in_row, little

AT_ONCE, PACKET, PARTS = 100, 4088, 8
VARIANT, TIME, DATETIME2, OFFSET = 0x62, 0x29, 0x2A, 0x2B
# It gives the bytes of a variant, whatever its type.
CHOSEN = [it for it in COLUMNS if it[3].kind != VARIANT]
KEPT = struct.Struct("<qihH")
NEAR = datetime.timedelta(milliseconds=4)


def described():
    columns = b"".join(bytes(4) + little(9, 2) + info + b"\1" + "n".encode("utf-16-le") for info, _, _, _ in CHOSEN)
    return b"\x81" + little(len(CHOSEN), 2) + columns


def told(it, value):
    while True:
        data, expected = value(it)
        if not isinstance(expected, (datetime.time, datetime.datetime)) or (expected.hour, expected.minute, expected.second) < (23, 59, 59):
            return data


def in_one_part(data):
    if data is None:
        return b"\xff" * 8
    return little(len(data), 8) + (little(len(data), 4) + data if data else b"") + little(0, 4)


def random_row(it):
    is_bits, values, bits = it.random() < 0.3, b"", bytearray((len(CHOSEN) + 7) // 8)
    for index, (_, front, value, _) in enumerate(CHOSEN):
        data = None if front and it.random() < 0.05 else told(it, value)
        if is_bits and data is None:
            bits[index // 8] |= 1 << index % 8
        else:
            values += in_one_part(data) if front == PARTS else in_row(it, front, data)[0]
    return (b"\xd2" + bits if is_bits else b"\xd1") + values


def messages(link):
    """Each message that comes: its packets' type, and its data."""
    came, data = b"", b""
    while True:
        while len(came) < 8 or len(came) < int.from_bytes(came[2:4], "big"):
            more = link.recv(65536)
            if not more:
                return
            came += more
        size = int.from_bytes(came[2:4], "big")
        kind, is_last, data, came = came[0], came[1] & 1, data + came[8:size], came[size:]
        if is_last:
            yield kind, data
            data = b""


def serve(listener, answers):
    """Answers one client: a batch that names rows by the next answer."""
    link, _ = listener.accept()
    with link, contextlib.suppress(ConnectionError):
        for kind, body in messages(link):
            data = {PRELOGIN: PRELOGIN_ANSWER, LOGIN: login_answer(), BATCH: done()}[kind]
            if kind == BATCH and "rows" in body.decode("utf-16-le", "replace"):
                data = next(answers)
            for at in range(0, len(data), PACKET):
                link.sendall(packet(data[at:at + PACKET], int(at + PACKET >= len(data))))


def clock(it):
    return datetime.timedelta(hours=it.hour, minutes=it.minute, seconds=it.second, microseconds=it.microsecond)


def is_same(kind, own, other):
    """Whether FreeTDS gives the same value."""
    if own is None or other is None:
        return own is other
    if kind == TIME:
        return abs(clock(own) - clock(other)) < NEAR
    if kind == DATETIME2:
        return abs(own - other) < NEAR
    if kind == OFFSET:
        ticks, day, minutes, _ = KEPT.unpack(other)
        utc = datetime.datetime(1900, 1, 1, tzinfo=datetime.timezone.utc) + datetime.timedelta(days=day, microseconds=ticks // 10)
        return own == utc and own.utcoffset() == datetime.timedelta(minutes=minutes)
    return own == other


def main(seed):
    try:
        sys.path.append("/usr/lib/python3/dist-packages")
        import pymssql
    except ImportError:
        print("FreeTDS: pymssql isn't here, and nothing is compared")
        return False
    it, columns = Random(seed), Columns(described())
    sent = [[random_row(it) for _ in range(AT_ONCE)] for _ in range(ROWS // AT_ONCE)]
    answers = (described() + b"".join(rows) + done(COUNT, len(rows)) for rows in sent)
    wrong = compared = 0
    with socket.create_server(("127.0.0.1", 0)) as listener:
        threading.Thread(target=serve, args=(listener, answers), daemon=True).start()
        port = str(listener.getsockname()[1])
        with pymssql.connect(server="127.0.0.1", port=port, user="u", password="p", tds_version="7.3", autocommit=True, timeout=120) as link:
            for rows in sent:
                with link.cursor() as cursor:
                    cursor.execute("rows")
                    for row, theirs in zip(rows, cursor.fetchall()):
                        for column, own, other in zip(columns, columns.values(row), theirs):
                            compared += 1
                            if not is_same(column.type.kind, own, other):
                                wrong += 1
                                print(f"{column}: {own!r}, and {other!r} to FreeTDS")
    print(f"FreeTDS: {ROWS} rows of {len(CHOSEN)} columns, {compared} values compared, {wrong} wrong")
    return bool(wrong)


if __name__ == "__main__":
    sys.exit(main(int(sys.argv[1]) if sys.argv[1:] else 1))
