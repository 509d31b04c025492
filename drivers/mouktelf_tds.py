"""The DB-API module of packages/python: mouktelf_tds.py PORT PACED_PORT."""
import asyncio
import sys
import threading
import time

from mouktelf import tds
from mouktelf.tds import aio

HOW = dict(user="a", password="b", login_timeout=60, timeout=60)


def connect(port, autocommit=True, **more):
    return tds.connect("127.0.0.1", port=int(port), autocommit=autocommit, **dict(HOW, **more))


def pool_of(port, most, kind=tds.Pool, **more):
    return kind("127.0.0.1", port=int(port), most=most, autocommit=True, **dict(HOW, **more))


def ask(cursor, text):
    try:
        cursor.execute(text)
        sets = []
        while True:
            if cursor.description:
                sets.append([row[0] for row in cursor.fetchall()])
            if not cursor.nextset():
                break
        print(text, "->", sets, [str(told) for _, told in cursor.messages])
    except tds.Error as error:
        print(text, "->", type(error).__name__, error.number, error)


def transactions():
    connection = connect(sys.argv[1], autocommit=False)
    cursor = connection.cursor()
    for name in ("commit", "rollback"):
        ask(cursor, "set y 3;rows 0 1")
        print("in a transaction", connection.in_transaction)
        getattr(connection, name)()
        print(name, "done, in a transaction", connection.in_transaction)
    with connection:
        ask(cursor, "select @@trancount")
    print("behind the block", connection.in_transaction)
    connection.close()


def versions_and_sizes():
    for version in (0x71000001, 0x72090002, 0x730B0003, 0x74000004):
        try:
            connection = connect(sys.argv[1], tds_version=version)
            ask(connection.cursor(), "rows 1 1")
            connection.close()
        except tds.Error as error:
            print(hex(version), "->", type(error).__name__, error)
    for size in (512, 4096, 32767):
        connection = connect(sys.argv[1], blocksize=size)
        cursor = connection.cursor().execute(";".join(["rows 1 2"] * 60))
        count = len(cursor.fetchall())
        while cursor.nextset():
            count += len(cursor.fetchall())
        print("packets of", size, "->", count, "rows")
        connection.close()


def rest(cursor):
    """All that is left, set by set."""
    while cursor.nextset():
        pass


def all_at_once(cursor):
    """All that is left, in one call."""
    return cursor.return_value


def in_the_middle(what, goes_on, **more):
    """Forty statements, two seconds of them: the rest is cancelled, and the connection lives on."""
    connection = connect(sys.argv[2], **more)
    cursor, started = connection.cursor(), time.time()
    cursor.execute(";".join(f"rows {place * 10} 2" for place in range(40)))
    print("first", [row[0] for row in cursor.fetchall()])
    try:
        if what == "cancelled":
            cursor.cancel()
        elif what == "cancelled by another thread":
            threading.Timer(0.2, cursor.cancel).start()
        goes_on(cursor)
    except tds.Error as error:
        print(what, "->", type(error).__name__, error)
    ask(cursor, "rows 5 1")
    print("at once" if time.time() - started < 1.5 else "late")
    connection.close()


def many():
    wrong = []

    def work(place):
        for turn in range(20):
            with pool.connection() as connection:
                first = place * 100 + turn
                cursor = connection.cursor().execute(f"rows {first} 3")
                if [row[0] for row in cursor.fetchall()] != [first, first + 1, first + 2]:
                    wrong.append(place)
                if turn % 5 == place % 5:
                    cursor.execute(";".join(f"rows {first} 30" for _ in range(20)))
                    cursor.cancel()

    # Where all are open at first, each lease's first request asks for a reset, whoever is lent what.
    with pool_of(sys.argv[1], 16, least=16) as pool:
        threads = [threading.Thread(target=work, args=(place,)) for place in range(64)]
        for thread in threads:
            thread.start()
        for thread in threads:
            thread.join()
        told = pool.statistics()
    print("64 threads,", told.leases - 16, "leases of", told.opened, "connections, wrong", len(wrong), "lost", told.lost)


async def many_tasks():
    wrong = []

    async def work(place):
        for turn in range(10):
            async with pool.connection() as connection:
                first = place * 100 + turn
                cursor = await connection.cursor().execute(f"rows {first} 3")
                if [row[0] async for row in cursor] != [first, first + 1, first + 2]:
                    wrong.append(place)

    async with pool_of(sys.argv[1], 16, aio.Pool) as pool:
        for it in [await pool.connection() for _ in range(16)]:
            await it.close()
        await asyncio.gather(*map(work, range(64)))
        told = pool.statistics()
    print("64 tasks,", told.leases - 16, "leases of", told.opened, "connections, wrong", len(wrong), "lost", told.lost)


def hands_over():
    """What a lease leaves, and a ticket keeps."""
    with pool_of(sys.argv[1], 1) as pool:
        with pool.connection() as connection:
            ask(connection.cursor(), "set a 5;begin;use other")
        with pool.connection() as connection:
            cursor = connection.cursor().execute("get a")
            print("get a ->", cursor.return_value, "in a transaction", connection.in_transaction)
            ask(cursor, "select db_name()")
            ask(cursor, "begin")
            ticket = connection.park()
        with pool.resume(ticket) as connection:
            print("resumed, in a transaction", connection.in_transaction)
            connection.commit()
        told = pool.statistics()
        print(told.leases, "leases,", told.opened, "connection, cleaned", told.cleaned)


CONNECTION = connect(sys.argv[1])
CURSOR = CONNECTION.cursor()
for TEXT in ("rows 7 3", "say hello", "rows 1 2;rows 5 1", "set x 5;get x", "foo", "fail 70001", "begin;commit", "commit"):
    ask(CURSOR, TEXT)
CONNECTION.close()
transactions()
versions_and_sizes()
in_the_middle("cancelled", rest)
in_the_middle("cancelled by another thread", rest)
in_the_middle("too long", all_at_once, timeout=0.6)
many()
asyncio.run(many_tasks())
hands_over()
