"""Rows of ten types, by python-tds alone and by mouktelf.tds over it, from the same server in another process, which sends bytes that
lie ready (ready.go): microseconds of a processor a row, the fewest of some turns, and rows a second by the clock; a query of one row;
how long a cancel takes, until the next query is answered; and leases of 1,000 threads over 10 connections. They take turns, so that
what else the machine does is the same for all; in brackets stands what is beside python-tds alone.

    PYTHONPATH=FOLDER python3 bench/languages/dbapi.py PORT     FOLDER has the package, built, and PORT is ready.go's"""

import contextlib
import queue
import sys
import threading
import time

import pytds
from mouktelf import tds

ROWS, TURNS, QUERIES, QUERY_TURNS, CANCELS, CANCEL_TURNS = 20_000, 7, 150, 60, 40, 60
CALLERS, LEASES, SHARED_TURNS = 1_000, 5, 6


def fewest(times, each, connections, once):
    """The least that one of so many turns takes of each connection, of a processor and by the clock."""
    found = [(1e9, 1e9)] * len(connections)
    for _ in range(times):
        for place, connection in enumerate(connections):
            cursor, began, since = connection.cursor(), time.process_time(), time.monotonic()
            once(cursor)
            took = (time.process_time() - began) / each * 1e6, (time.monotonic() - since) / each * 1e6
            found[place] = tuple(map(min, found[place], took))
    return found


def given(cursor, text):
    cursor.execute(text)
    return cursor.fetchall()


def cancelled(cursor):
    """Cancels behind the first row of an answer that goes on, and asks the next query."""
    for _ in range(CANCELS):
        one = cursor.connection.cursor()
        one.execute("endless")
        one.fetchone()
        one.cancel()
        rows = given(cursor, "one")
        assert [tuple(it) for it in rows] == [(1,)], rows


def measured(names, connects, port):
    """What each driver takes. Both give the same rows."""
    connections = [it("127.0.0.1", port=port, user="a", password="b", autocommit=True) for it in connects]
    alone, over = (given(it.cursor(), "rows") for it in connections)
    assert len(alone) == len(over) == ROWS and all(tuple(one) == tuple(other) for one, other in zip(alone, over)), (alone[0], over[0])
    rows = fewest(TURNS, ROWS, connections, lambda cursor: given(cursor, "rows"))
    queries = fewest(QUERY_TURNS, QUERIES, connections, lambda cursor: [given(cursor, "one") for _ in range(QUERIES)])
    cancels = fewest(CANCEL_TURNS, CANCELS, connections, cancelled)
    for name, *found in zip(names, rows, queries, cancels):
        row, query, cancel = ([*it, it[0] / first[0][0], it[1] / first[0][1]] for it, first in zip(found, (rows, queries, cancels)))
        print(f"{name}: a row of ten types {row[0]:.2f} us of a processor ({row[2]:.2f}), {1e6 / row[1]:,.0f} rows a second "
              f"({1 / row[3]:.2f}); a query of one row {query[0]:.0f} us of a processor ({query[2]:.2f}), {query[1]:.0f} by the clock "
              f"({query[3]:.2f}); a cancel, to the next query's answer, {cancel[1]:.0f} us by the clock ({cancel[3]:.2f})")


class Queue:
    """What serves for a pool where there is none: connections in a queue. Nothing is reset, and who comes just then goes before those
    who wait."""

    def __init__(self, connections):
        self.free = queue.SimpleQueue()
        for it in connections:
            self.free.put(it)

    @contextlib.contextmanager
    def connection(self):
        connection = self.free.get()
        try:
            yield connection
        finally:
            self.free.put(connection)


class Resetting(Queue):
    """The same with a lease's duty: each finds a new session, by the call that python-tds's own pooling makes then."""

    @contextlib.contextmanager
    def connection(self):
        with super().connection() as connection:
            connection.cursor().callproc("sp_reset_connection")
            yield connection


def turn(pool):
    """What a lease of many threads over ten connections takes, by the clock and of a processor; and how many got what they shouldn't."""
    wrong = []

    def calls():
        for _ in range(LEASES):
            with pool.connection() as connection:
                if [tuple(it) for it in given(connection.cursor(), "one")] != [(1,)]:
                    wrong.append(1)

    threading.stack_size(1 << 18)
    callers, since, began = [threading.Thread(target=calls) for _ in range(CALLERS)], time.monotonic(), time.process_time()
    for it in callers:
        it.start()
    for it in callers:
        it.join()
    took = time.monotonic() - since, time.process_time() - began
    return (*(it / (CALLERS * LEASES) for it in took), len(wrong))


def lends(port):
    how = {"port": port, "user": "a", "password": "b", "autocommit": True}
    queues = [kind([pytds.connect("127.0.0.1", **how) for _ in range(10)]) for kind in (Resetting, Queue)]
    with tds.Pool("127.0.0.1", most=10, wait=120, **how) as pool:
        turns = [[turn(it) for it in (pool, *queues)] for _ in range(SHARED_TURNS)]
        told = pool.statistics()
    least = [[min(it) for it in zip(*own)] for own in zip(*turns)]
    (clock, processor, _), wrong = least[0], sum(it[0][2] for it in turns)
    print(f"{CALLERS} threads over {told.opened} connections: mouktelf.tds.Pool {1 / clock:,.0f} leases a second, {processor * 1e6:.0f} us of "
          f"a processor each, {wrong} wrong, the longest wait {told.longest_wait:.1f} s; python-tds in a queue, in brackets what the pool has beside it:")
    for name, (by_clock, by_processor, _) in zip(("a reset at each hand-over", "nothing is reset"), least[1:]):
        print(f"  {name}: {1 / by_clock:,.0f} ({by_clock / clock:.2f}), {by_processor * 1e6:.0f} us ({processor / by_processor:.2f})")


def main(port):
    measured(("python-tds alone", "mouktelf.tds"), (pytds.connect, tds.connect), port)
    lends(port)


if __name__ == "__main__":
    main(int(sys.argv[1]))
