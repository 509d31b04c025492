"""The pool of the DB-API module, and both for asyncio, before the server of tds_server.py: each answer is its own asker's, and no lease
finds what another left.

    python3 test_tds_pool.py [PART..]     all parts where none is named. It wants python-tds, and says so where that isn't here."""

import asyncio
import contextlib
import io
import os
import random
import re
import threading
import time

from test_tds import LAST, firsts, raises, run, run_all
from mouktelf import tds
from mouktelf.tds import aio
from tds_server import BATCH, CALL, TRANSACTION, Server

FULL_RESET, KEEPING_RESET = 8, 16


def pool_of(server, kind=tds.Pool, **more):
    return kind("127.0.0.1", **{"port": server.port, "user": "a", "password": "b", "autocommit": True, "timeout": 20, "wait": 20, **more})


def stranger(cursor, first, count):
    """Reads sets of 50 rows each, which begin at `first`, one behind another: whether a row is none of them. A cancel may come."""
    told, place = firsts(cursor.fetchall()), 0
    while told == [*range(first + place, first + place + 50)]:
        place += 1
        if not cursor.nextset():
            return place != count
        told = firsts(cursor.fetchall())
    return True


def pool_threads():
    """Eight threads on three connections: each answer is its own asker's, also where some are left in the middle, or cancelled by
    their own thread or another one at any time."""
    wrong, cancels, told_so = [], [], []

    def work(place):
        chance = random.Random(place)
        for turn in range(40):
            first = (place * 100 + turn) * 1000
            with pool.connection() as connection:
                cursor = connection.cursor()
                if cursor.execute("get a").return_value != 0 or connection.in_transaction:
                    wrong.append("a stranger's session")
                cursor.execute(f"set a {first + 1};begin;" + ";".join(f"rows {first + it} 50" for it in range(20)))
                if chance.random() < 0.5:
                    threading.Timer(chance.random() / 100, lambda it: cancels.append(it.cancel()), (cursor,)).start()
                    try:
                        if stranger(cursor, first, 20):
                            wrong.append("a stranger's rows")
                    except tds.Cancelled as why:
                        told_so.append(why)
                elif chance.random() < 0.5:
                    cancels.append(cursor.cancel())
                other = connection.cursor().execute(f"rows {first + 7} 2")
                if firsts(other.fetchall()) != [first + 7, first + 8]:
                    wrong.append("a stranger's rows behind a cancel")

    with Server() as server, pool_of(server, most=3) as pool:
        threading.excepthook = lambda told: told.exc_type is tds.InterfaceError or wrong.append(repr(told.exc_value))
        run_all(work, 8)
        told = pool.statistics()
        assert wrong == [] and any(cancels) and told_so, (wrong, len(told_so))
        assert (told.open, told.lent, told.leases, told.opened, told.lost) == (3, 0, 320, 3, 0), told
        assert told.waits > 0 and told.cleaned > 0 and 0 < told.longest_wait < 20


def pool_hands_over():
    with Server() as server, pool_of(server, most=1, timeout=0.3) as pool:
        with pool.connection() as connection:
            cursor = connection.cursor()
            cursor.execute("set a 5")
        raises(tds.InterfaceError, cursor.execute, "get a")
        raises(tds.InterfaceError, cursor.cancel)
        # Nothing goes out at a return that owes nothing: the next lease's first request has the reset.
        assert server.heard == [(BATCH, LAST, 0)]
        with pool.connection() as connection:
            assert connection.cursor().execute("get a").return_value == 0
            assert server.heard[1:] == [(BATCH, LAST | FULL_RESET, 0)]
            raises(tds.TimeoutError, connection.cursor().execute, "crossed;begin")
        with pool.connection() as connection:
            raises(tds.OperationalError, connection.cursor().execute, "commit")
            connection.cursor().execute("begin")
        # A transaction that is left is ended at once, and its locks with it.
        told = pool.statistics()
        assert server.heard[-1] == (BATCH, LAST | FULL_RESET, 0) and (told.cleaned, told.lost) == (1, 0)
    with Server() as server, pool_of(server, most=1, cleans=True, autocommit=False, least=1) as pool:
        with pool.connection() as connection:
            connection.cursor().execute("set a 5")
        assert [it[0] for it in server.heard] == [BATCH, TRANSACTION, BATCH, TRANSACTION, BATCH]


def pool_waits():
    with Server() as server, pool_of(server, most=2, least=2) as pool:
        assert pool.statistics().open == 2
        one, two = pool.connection(), pool.connection()
        since = time.monotonic()
        raises(tds.TimeoutError, pool.connection, 0.2)
        assert 0.1 < time.monotonic() - since < 5 and pool.statistics().refused == 1
        order = []

        def wait(place):
            with pool.connection():
                order.append(place)

        threads = []
        for place in range(5):
            threads.append(threading.Thread(target=wait, args=(place,)))
            threads[-1].start()
            while pool.statistics().waiting != place + 1:
                time.sleep(0.001)
        one.close()
        for it in threads:
            it.join(60)
        assert order == [*range(5)]
        two.close()
        # The server closes what is free: who is lent one next doesn't see it.
        server.drop_all()
        time.sleep(0.1)
        with pool.connection() as connection:
            assert firsts(connection.cursor().execute("rows 1 1").fetchall()) == [1]
            raises(tds.ConnectionLost, connection.cursor().execute, "drop")
        with pool.connection() as connection:
            assert firsts(connection.cursor().execute("rows 2 1").fetchall()) == [2]
        assert pool.statistics().lost >= 2
    with pool_of(server, most=1) as pool:
        raises(tds.OperationalError, pool.connection)
        assert pool.statistics().lent == 0
    raises(tds.InterfaceError, pool.connection)


def pool_parks():
    with Server() as server, pool_of(server, most=2) as pool:
        with pool.connection() as connection:
            raises(tds.InterfaceError, connection.park)
            connection.cursor().execute("set a 5;begin")
            ticket = connection.park()
            raises(tds.InterfaceError, connection.cursor)
        assert pool.statistics().kept == 1
        with pool.resume(ticket) as connection:
            assert connection.cursor().execute("get a").return_value == 0
            assert server.heard[-1] == (BATCH, LAST | KEEPING_RESET, 1)
            connection.commit()
        raises(tds.InterfaceError, pool.resume, ticket)
        with pool.connection() as connection:
            connection.cursor().execute("begin")
            ticket = connection.park()
        pool.abandon(ticket)
        assert pool.statistics()[1:3] == (0, 0) and server.heard[-1] == (BATCH, LAST | FULL_RESET, 0)


def page():
    """The lines with which TDS.md begins, as they stand there but for the server."""
    with open(f"{os.path.dirname(os.path.abspath(__file__))}/TDS.md", encoding="utf-8") as it:
        lines = re.search(r"(?s)```python\n(.*?)```", it.read())[1]
    with Server({"select * from large": "rows 0 50;wait", "select 1": "rows 1 1"}) as server:
        here = lines.replace('"db.example"', f'"127.0.0.1", port={server.port}').replace(', cafile="ca.pem"', "")
        told, names = io.StringIO(), {}
        with contextlib.redirect_stdout(told):
            exec(here, names)
        assert len(lines.split("\n")) <= 11 and told.getvalue() == "[(1,)]\n", told.getvalue()
        assert [it[0] for it in server.heard] == [TRANSACTION, CALL, BATCH, BATCH, TRANSACTION] and server.cancels == 1
        assert names["pool"].statistics()[:3] == (1, 0, 0) and not names["pool"].close()


async def of_asyncio(server):
    connection = await aio.connect(server="127.0.0.1", port=server.port, user="a", password="b", autocommit=False, timeout=20)
    async with connection, connection.cursor() as cursor:
        await cursor.execute("rows 7 2;fail 208")
        assert [row async for row in cursor] == [(7,), (8,)] and await connection.in_transaction()
        assert server.heard == [(TRANSACTION, LAST, 0), (BATCH, LAST, 1)]
        try:
            await cursor.nextset()
        except tds.ProgrammingError as why:
            assert why.number == 208
    assert not await connection.in_transaction()
    connection.autocommit = True
    cursor = connection.cursor()
    # A task that is cancelled cancels its request, and what that began is rolled back.
    task = asyncio.ensure_future(cursor.execute("crossed;begin"))
    await asyncio.sleep(0.1)
    task.cancel()
    assert isinstance((await asyncio.gather(task, return_exceptions=True))[0], asyncio.CancelledError)
    assert not await connection.in_transaction()
    connection.timeout = 0.2
    try:
        await cursor.execute("wait")
    except tds.TimeoutError:
        assert firsts(await (await cursor.execute("rows 1 2")).fetchall()) == [1, 2]
    assert await cursor.callproc("p", (1, tds.output(value=2))) == [1, 9] and await cursor.return_value() == 3
    await connection.close()


async def of_asyncio_pool(server):
    wrong, begun = [], asyncio.Event()

    async def work(place, pool):
        chance = random.Random(place)
        for turn in range(20):
            first = (place * 100 + turn) * 1000
            async with pool.connection() as connection:
                cursor = await connection.cursor().execute("get a")
                if await cursor.return_value() != 0 or await connection.in_transaction():
                    wrong.append("a stranger's session")
                await cursor.execute(f"set a 5;begin;" + ";".join(f"rows {first + it} 50" for it in range(20)))
                told = firsts(await cursor.fetchmany(chance.randrange(50)))
                if told != [*range(first, first + len(told))]:
                    wrong.append("a stranger's rows")
                if chance.random() < 0.5:
                    cursor.cancel()
                if place == 0 and turn == 5:
                    begun.set()

    async with pool_of(server, aio.Pool, most=3) as pool:
        tasks = [asyncio.ensure_future(work(it, pool)) for it in range(8)]
        await begun.wait()
        tasks[0].cancel()
        await asyncio.gather(*tasks, return_exceptions=True)
        assert [it.exception() for it in tasks[1:]] == [None] * 7 and tasks[0].cancelled() and wrong == [], (wrong, tasks[0])
        assert pool.statistics()[:3] == (3, 0, 0) and threading.active_count() == before(server), pool.statistics()
        async with pool.connection() as connection:
            await connection.cursor().execute("begin")
            ticket = await connection.park()
        async with await pool.resume(ticket) as connection:
            await connection.rollback()
        held = [await pool.connection() for _ in range(3)]
        try:
            await pool.connection(wait=0.1)
        except tds.TimeoutError:
            held = [await it.close() for it in held]
        assert held == [None] * 3


def before(server):
    """The threads that there are without asyncio's: the main one, and the server's."""
    return 2 + len(server.peers)


def for_asyncio():
    for part in (of_asyncio, of_asyncio_pool):
        with Server() as server:
            asyncio.run(part(server))


if __name__ == "__main__":
    run((pool_threads, pool_hands_over, pool_waits, pool_parks, page, for_asyncio), "the pool and of asyncio")
