"""The DB-API module before the server of tds_server.py: what is told to whom, what goes out, and what is left behind. Expected bytes
are by MS-TDS.

    python3 test_tds.py [PART..]     all parts where none is named. It wants python-tds, and says so where that isn't here."""

import datetime
import decimal
import io
import sys
import threading
import time
import uuid

try:
    import pytds
except ImportError:
    print("test_tds: left out: python-tds isn't here")
    sys.exit(0)

from mouktelf import tds
from tds_server import BATCH, COUNT, MORE, TRANSACTION, Server, done

LAST = 1


def connect(server, **more):
    return tds.connect("127.0.0.1", **{"port": server.port, "user": "a", "password": "b", "autocommit": True, "timeout": 20, **more})


def raises(kind, call, *words):
    """The error that a call raises, which is of this very kind."""
    try:
        call(*words)
    except tds.Error as why:
        assert type(why) is kind, repr(why)
        return why
    raise AssertionError(f"{call} {words} raises nothing")


def firsts(rows):
    return [row[0] for row in rows]


def first_steps():
    with Server() as server:
        connection = connect(server)
        cursor = connection.cursor()
        raises(tds.ProgrammingError, cursor.fetchone)
        assert cursor.rowcount == -1 and cursor.execute("rows 7 3") is cursor
        (name, kind, *_), = cursor.description
        assert name == "n" and kind == tds.NUMBER and kind != tds.STRING
        assert cursor.fetchone() == (7,) and cursor.fetchmany(5) == [(8,), (9,)] and cursor.fetchone() is None
        assert cursor.rowcount == 3 and cursor.nextset() is None and cursor.description is None
        cursor.execute("rows 1 2;say hello;rows 5 1")
        assert cursor.fetchone() == (1,) and cursor.nextset() and list(cursor) == [(5,)] and cursor.nextset() is None
        (kind, told), = cursor.messages
        assert kind is tds.Warning and (str(told), told.number, told.severity, told.line) == ("hello", 50000, 0, 7)
        cursor.execute("get a")
        assert cursor.return_value == 0 and cursor.description is None and cursor.rowcount == -1
        assert cursor.executemany("rows %s 2", []).rowcount == -1
        cursor.close()
        raises(tds.InterfaceError, cursor.execute, "rows 1 1")
        connection.close()
        raises(tds.InterfaceError, connection.cursor)


def told_errors():
    with Server() as server, connect(server) as connection:
        cursor = connection.cursor()
        for number, kind in ((50001, tds.OperationalError), (2627, tds.IntegrityError), (208, tds.ProgrammingError), (8134, tds.DataError)):
            why = raises(kind, cursor.execute, f"fail {number}")
            assert (str(why), why.number, why.state, why.severity, why.line) == ("fail", number, 1, 16, 7)
        # An error behind rows comes behind them; one of a later statement by nextset.
        cursor.execute("rows 1 1;fail 208")
        assert cursor.fetchall() == [(1,)]
        assert raises(tds.ProgrammingError, cursor.nextset).number == 208
        cursor.execute("rows 2 1")
        assert cursor.fetchall() == [(2,)]
        raises(tds.ProgrammingError, cursor.execute, "rows %s %s", (1,))
        raises(tds.ProgrammingError, cursor.execute, "rows %s 1", 1)


def spelled():
    """A call of sp_executesql: its number, no options, the text, the declaration, the parameter (2.2.6.6, 2.2.5.4, 2.2.5.2.3)."""
    def long_text(text):
        data = text.encode("utf-16-le")
        front = b"\0\0\xE7\xFF\xFF" + bytes.fromhex("0904D00034") + b"\xFE" + b"\xFF" * 7
        return front + len(data).to_bytes(4, "little") + data + bytes(4)

    front = b"\xFF\xFF\x0A\0\0\0"
    with Server() as server:
        spelling = connect(server)._spelling
        assert spelling.request("select 1", ()) == (1, "select 1".encode("utf-16-le"))
        assert spelling.request("select %s", (None,)) == (1, "select NULL".encode("utf-16-le"))
        wanted = front + long_text("select @P1") + long_text("@P1 INT") + b"\3@\0P\x001\0\0\x26\4\4\5\0\0\0"
        assert spelling.request("select %s", (5,)) == (3, wanted)
        wanted = front + long_text("select @n") + long_text("@n VARBINARY(8000)") + b"\2@\0n\0\0\xA5\x40\x1F\2\0\1\2"
        assert spelling.request("select %(n)s", {"n": b"\1\2"}) == (3, wanted)
        assert spelling.procedure("p", ()) == b"\1\0p\0\0\0"
        raises(tds.DataError, spelling.request, "select %s", (object(),))


def ticks(seconds, count=5):
    """A time of day in units of 100 ns (2.2.5.5.1.8)."""
    return (seconds * 10 ** 7).to_bytes(count, "little").hex()


NOON, DAY = datetime.datetime(2025, 1, 1, 12, 0, 1), (739251).to_bytes(3, "little").hex()
LATIN, TENTH = "0904D00034", datetime.datetime(2000, 1, 1, 12, 0, 0, 10000)
# A table's name, in one part; a text's pointer and the time behind it.
TABLE, POINTER = "01" "0100" "7400", "10" + "00" * 24
# A column each: its type (2.2.5.4), a value of it (2.2.5.5), and what that is.
TYPES = (
    ("2604", "0406000000", 6), ("2608", "08FFFFFFFFFFFFFFFF", -1), ("6801", "0101", True), ("6D08", "08000000000000F83F", 1.5),
    ("6D04", "040000C03F", 1.5), ("6A050A02", "05019D000000", decimal.Decimal("1.57")),
    ("6E08", "080000000010270000", decimal.Decimal(1)), ("E71400" + LATIN, "04006100E900", "a\xe9"),
    ("A70A00" + LATIN, "0100E9", "\xe9"), ("A50A00", "03000102FF", b"\1\2\xFF"),
    ("E7FFFF" + LATIN, "0400000000000000" "020000006100" "020000006200" "00000000", "ab"),
    ("F100", "0200000000000000" "020000006100" "00000000", "a"),
    ("2410", "1033221100554477668899AABBCCDDEEFF", uuid.UUID("00112233-4455-6677-8899-aabbccddeeff")),
    ("28", "03" + DAY, NOON.date()), ("2907", "05" + ticks(43201), NOON.time()), ("2A07", "08" + ticks(43201) + DAY, NOON),
    ("2B07", "0A" + ticks(43201) + DAY + "3C00", NOON.replace(tzinfo=datetime.timezone.utc)),
    ("6F08", "08AC8E0000" "03C1C500", TENTH),
    ("6F04", "04AC8ED002", datetime.datetime(2000, 1, 1, 12)), ("6210000000", "06000000" "3800" "07000000", 7),
    ("6A050A02", "05009D000000", decimal.Decimal("-1.57")), ("A5FFFF", "0200000000000000" "0200000001FF" "00000000", b"\1\xFF"),
    ("23FFFFFF7F" + LATIN + TABLE, POINTER + "02000000" "6869", "hi"), ("22FFFFFF7F" + TABLE, POINTER + "02000000" "01FF", b"\1\xFF"),
    ("63FFFFFF7F" + LATIN + TABLE, POINTER + "04000000" "68006900", "hi"),
    ("F0FFFF" "00" "00" "016700" "0000", "0200000000000000" "0200000001FF" "00000000", b"\1\xFF"),
    ("F101" "0164000161000100" "7300", "0200000000000000" "020000006100" "00000000", "a"),
)
# Those that can't be null: of a size of their own.
FIXED = (("38", "07000000", 7), ("30", "FF", 255), ("34", "FEFF", -2), ("7F", "01" + "00" * 7, 1), ("32", "01", True),
         ("3E", "000000000000F83F", 1.5), ("3C", "0000000010270000", decimal.Decimal(1)), ("3D", "AC8E000003C1C500", TENTH))


def null_of(kind):
    """How a null of this type stands in a row (2.2.7.20)."""
    if kind[:2] in ("A5", "A7", "E7", "F0", "F1"):
        return "FF" * (8 if kind[2:6] == "FFFF" or kind[:2] in ("F0", "F1") else 2)
    return "00000000" if kind[:2] == "62" else "00"


def result(kinds, *rows):
    """An answer with rows of columns of these types."""
    columns = b"".join(bytes(4) + b"\1\0" + bytes.fromhex(it) + b"\1c\0" for it in kinds)
    return b"\x81" + len(kinds).to_bytes(2, "little") + columns + b"".join(rows) + done(MORE | COUNT, len(rows))


def types():
    kinds, given, wanted = zip(*TYPES, *FIXED)
    row = b"\xD1" + bytes.fromhex("".join(given))
    # The first of every eight is null, and isn't there.
    some = b"\xD2" + b"\1" * ((len(kinds) + 7) // 8) + bytes.fromhex("".join(it for place, it in enumerate(given) if place % 8))
    nulls = b"\xD1" + bytes.fromhex("".join(null_of(it[0]) for it in TYPES))
    answers = {"types": result(kinds, row, some), "nulls": result(kinds[:len(TYPES)], nulls), "wrong": result(["2604"], b"\xD1\3\1\2\3")}
    with Server(answers) as server, connect(server) as connection:
        cursor = connection.cursor()
        whole, partly = cursor.execute("types").fetchall()
        for place, it in enumerate(wanted):
            assert whole[place] == it and type(whole[place]) is type(it), (kinds[place], whole[place])
            assert partly[place] == (it if place % 8 else None), (kinds[place], partly[place])
        assert cursor.execute("nulls").fetchone() == (None,) * len(TYPES)
        # A value that hasn't its type's size is given as it can be: the session goes on.
        cursor.execute("wrong;rows 7 1")
        assert len(cursor.fetchall()) == 1 and cursor.nextset() and cursor.fetchall() == [(7,)]


def transactions():
    with Server() as server:
        connection = connect(server, autocommit=False, isolation_level=4)
        cursor = connection.cursor()
        connection.commit()
        assert server.heard == [] and not connection.in_transaction
        with connection:
            cursor.execute("set a 5")
            assert connection.in_transaction
        # A begin before the first statement, and each request names the transaction.
        assert server.heard == [(TRANSACTION, LAST, 0), (BATCH, LAST, 1), (TRANSACTION, LAST, 1)]
        try:
            with connection:
                cursor.execute("rows 1 1")
                raise KeyError
        except KeyError:
            pass
        assert not connection.in_transaction
        cursor.execute("rows 1 1")
        raises(tds.ProgrammingError, setattr, connection, "autocommit", True)
        # However it ends: the server's word counts.
        cursor.execute("commit")
        connection.autocommit = True
        cursor.execute("begin")
        assert connection.in_transaction
        connection.rollback()
        assert not connection.in_transaction


def cancels():
    with Server() as server, connect(server) as connection:
        cursor, other = connection.cursor(), connection.cursor()
        for text in ("rows 1 2;wait", "rows 1 2;crossed;rows 5 2"):
            cursor.execute(text)
            assert cursor.fetchone() == (1,)
            threading.Timer(0.1, cursor.cancel).start()
            raises(tds.Cancelled, cursor.nextset)
            raises(tds.Cancelled, cursor.fetchone)
            assert firsts(cursor.execute("rows 7 2").fetchall()) == [7, 8]
            assert cursor.nextset() is None and not cursor.cancel()
        # Its own thread cancels, and asks the next at once; a cancel of what has ended hits nobody.
        cursor.execute("rows 1 2;wait")
        assert cursor.cancel() and not cursor.cancel()
        other.execute("rows 3 1;rows 4 1")
        assert not cursor.cancel() and firsts(other.fetchall()) == [3]
        # A transaction that was told stays; one that nobody was told of is rolled back.
        cursor.execute("begin;rows 1 1;wait")
        cursor.cancel()
        assert connection.in_transaction
        connection.rollback()
        threading.Timer(0.1, cursor.cancel).start()
        raises(tds.Cancelled, cursor.execute, "crossed;begin")
        assert not connection.in_transaction
        raises(tds.OperationalError, cursor.execute, "commit")


def timeouts():
    with Server() as server, connect(server, timeout=0.3) as connection:
        cursor = connection.cursor()
        for text in ("wait", "crossed;begin"):
            since = time.monotonic()
            assert isinstance(raises(tds.TimeoutError, cursor.execute, text), TimeoutError)
            assert 0.2 < time.monotonic() - since < 5
            assert raises(tds.OperationalError, cursor.execute, "commit").number == 50003
        cursor.execute("rows 1 1")
        assert cursor.fetchall() == [(1,)]


def ends_time_out():
    """A commit that is cancelled was done, or wasn't: what the server told behind the cancel counts."""
    with Server() as server:
        connection = connect(server, timeout=0.3, autocommit=False)
        cursor = connection.cursor()
        for text, is_open in (("wait", True), ("crossed", False)):
            cursor.execute("rows 1 1")
            server.before.append(text)
            raises(tds.TimeoutError, connection.commit)
            server.before.clear()
            assert connection.in_transaction == is_open
            connection.commit()
            assert not connection.in_transaction
        assert [it[2] for it in server.heard if it[0] == TRANSACTION] == [0, 1, 1, 0, 2]


def shared():
    """Cursors and threads on one connection: what one hasn't read yet is kept for it."""
    with Server() as server, connect(server) as connection:
        one, two = connection.cursor(), connection.cursor()
        one.execute("rows 1 3;rows 5 1")
        assert one.fetchone() == (1,)
        two.execute("rows 7 2")
        assert firsts(one.fetchall()) == [2, 3] and one.nextset() and firsts(one.fetchall()) == [5]
        assert firsts(two.fetchall()) == [7, 8]
        wrong = []

        def work(place):
            for turn in range(30):
                cursor = connection.cursor().execute(f"rows {place * 100 + turn} 2")
                if firsts(cursor.fetchall()) != [place * 100 + turn, place * 100 + turn + 1]:
                    wrong.append(place)

        run_all(work, 4)
        assert wrong == []


def run_all(work, count):
    threads = [threading.Thread(target=work, args=(it,)) for it in range(count)]
    for it in threads:
        it.start()
    for it in threads:
        it.join(120)
    assert not any(it.is_alive() for it in threads)


def breaks():
    with Server() as server:
        connection = connect(server)
        cursor = connection.cursor()
        raises(tds.ConnectionLost, cursor.execute, "drop")
        # A session that is gone isn't begun anew behind the caller's back.
        raises(tds.ConnectionLost, connection.cursor().execute, "rows 1 1")
        raises(tds.ConnectionLost, connection.commit)
        # An answer that nobody asked for is nobody's.
        cursor = connect(server).cursor().execute("stray")
        time.sleep(0.2)
        raises(tds.ConnectionLost, cursor.execute, "rows 1 1")
        connection = connect(server, cancel_timeout=0.2, timeout=0.2)
        raises(tds.ConnectionLost, connection.cursor().execute, "deaf")


def procedures():
    with Server() as server, connect(server) as connection:
        cursor = connection.cursor()
        assert cursor.callproc("p", (1, tds.output(value=2))) == [1, 9]
        assert cursor.fetchall() == [(1,)] and cursor.return_value == 3
        raises(tds.NotSupportedError, lambda: connect(server, use_mars=True))
        # The server's name as python-tds and PEP 249 have it, and words by their places.
        here = "127.0.0.1"
        for words, how in (((here, "d", "a", "b"), {}), ((), {"server": here}), (("nowhere.invalid",), {"host": here})):
            with tds.connect(*words, port=server.port, autocommit=True, **how) as connection:
                assert connection.cursor().execute("rows 7 1").fetchall() == [(7,)]
        for words, how in (((here, "d", "a", "b", "c"), {}), ((here, "d"), {"database": "d"})):
            try:
                tds.connect(*words, port=server.port, **how)
            except TypeError:
                continue
            raise AssertionError(f"{words} connect")


def bulk_loads():
    begins = "INSERT BULK [d].[t]([n] NVARCHAR(4000),[i] INT) WITH (TABLOCK,ORDER(n ASC))"
    with Server({begins: done(), "INSERT BULK [t]([n] NVARCHAR(4000))": done()}) as server, connect(server) as connection:
        cursor, columns = connection.cursor(), ("n", tds.Column("i", pytds.tds_types.IntType()))
        how = dict(table_or_view="t", schema="d", columns=columns, tablock=True, order=["n ASC"])
        assert cursor.copy_to(data=[("a", 7), (None, -1)], **how).rowcount == 2
        # Two columns (2.2.7.4): nvarchar(4000), which may be null, and int; a ROW each, and a DONE.
        assert server.loaded.pop().hex().upper() == (
            "810200" "00000000" "0100" "E7" "401F" "0904D00034" "01" "6E00" "00000000" "0000" "26" "04" "01" "6900"
            "D1" "0200" "6100" "04" "07000000" "D1" "FFFF" "04" "FFFFFFFF" "FD" + "00" * 12)
        # Nothing goes out of a load that can't be spelled, and the connection lives on.
        asked = len(server.heard)
        raises(tds.DataError, lambda: cursor.copy_to(data=[("a", "seven")], **how))
        raises(tds.DataError, lambda: cursor.copy_to(data=[("a",)], **how))
        raises(tds.NotSupportedError, lambda: cursor.copy_to(data=[], **how, nowhere=True))
        assert len(server.heard) == asked and not server.loaded
        assert cursor.copy_to(io.StringIO("a\nNULL\n"), "t", columns=["n"], null_string="NULL").rowcount == 2
        assert server.loaded.pop().endswith(bytes.fromhex("D102006100D1FFFF") + b"\xFD" + bytes(12))
        assert cursor.execute("rows 7 1").fetchall() == [(7,)]


PARTS = (first_steps, told_errors, spelled, types, transactions, cancels, timeouts, ends_time_out, shared, breaks, procedures, bulk_loads)


def run(parts, what):
    """Runs the parts that the command line names, all where it names none."""
    for it in parts:
        if not sys.argv[1:] or it.__name__ in sys.argv[1:]:
            it()
    print(f"{len(parts)} parts of {what}, all right")


if __name__ == "__main__":
    run(PARTS, "the DB-API module")
