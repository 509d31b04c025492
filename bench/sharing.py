"""The share part of bench/relay: how much is served of many applications on few connections, by sessions and by
transactions, and of as many that connect to the server themselves. Each answer is looked at, as in tests/relay_turns. The
same of pgbouncer before PostgreSQL, where they are installed. And what a request takes of the relay where nobody waits, by
instructions (callgrind)."""

import asyncio
import contextlib
import multiprocessing
import os
import random
import re
import shutil
import sys
import tempfile
import time

sys.path.append(f"{os.path.dirname(os.path.abspath(__file__))}/../tests/relay_parts")
from peers import connect, message, with_features
from relay_told import Relay
from turn_applications import Application, Wrong
from turn_server import Server
from turn_tokens import BATCH, END, PREPARE, headers, packets, text_of
import pgbouncer

# So many applications on so many connections, who think so many seconds between requests, on average, for so long.
CROWDS = (500, 10, 4, 20), (5_000, 64, 20, 40)
# Until all have logged in.
BEGINNING = 120
# What applications do: of a hundred requests so many begin a transaction of three, and so many applications prepare.
KINDS = {"one batch, and another": (0, 0), "20 of 100 are transactions of three": (20, 0), "and 5 of 100 applications prepare": (20, 5)}


def serves(way):
    """A server in a process of its own, until it is told to end."""
    with Server() as server:
        way.send(server.port)
        way.recv()


class Many:
    """Applications that stay, ask, think and ask again: what was served from when all had logged in."""

    def __init__(self, crowd, transactions, prepare, application=Application):
        self.count, _, self.thinks, self.seconds = crowd
        self.application = application
        self.transactions, self.prepare = transactions, prepare
        self.took, self.served, self.wrong, self.is_over = [], set(), [], False
        self.there, self.begun = 0, asyncio.Event()

    async def one(self, port, asks, place):
        rng = random.Random(place)
        it = await self.application(port, asks=asks).connect()
        self.there += 1
        await self.begun.wait()
        prepares = rng.random() * 100 < self.prepare
        while not self.is_over:
            await asyncio.sleep(rng.expovariate(1 / self.thinks))
            is_many = rng.random() * 100 < self.transactions
            for text in ("begin", "set t 1;get t", "rollback") if is_many else ("get a",):
                before = time.monotonic()
                await (it.call((PREPARE, "get a")) if prepares else it.ask(text))
                prepares = False
                self.took.append(time.monotonic() - before)
                self.served.add(place)

    async def guarded(self, *words):
        try:
            await self.one(*words)
        except (Wrong, OSError, asyncio.IncompleteReadError, asyncio.TimeoutError) as error:
            self.wrong.append(repr(error)[:500])

    async def run(self, port, asks):
        tasks = []
        for place in range(self.count):
            tasks.append(asyncio.ensure_future(self.guarded(port, asks, place)))
            if place % 20 == 19:
                await asyncio.sleep(0.02)
        end = time.monotonic() + BEGINNING
        while self.there + len(self.wrong) < self.count and time.monotonic() < end:
            await asyncio.sleep(0.1)
        self.begun.set()
        await asyncio.wait(tasks, timeout=self.seconds)
        self.is_over = True
        for it in tasks:
            it.cancel()
        await asyncio.wait(tasks)


@contextlib.contextmanager
def served():
    """The port of a server in a process of its own."""
    near, far = multiprocessing.Pipe()
    server = multiprocessing.Process(target=serves, args=(far,))
    server.start()
    try:
        yield near.recv()
    finally:
        near.send("end")
        server.join()


def line(crowd, name, way, kind, port, relay=None, application=Application):
    """One row of the table, and what was wrong."""
    many = Many(crowd, *kind, application)
    asyncio.run(many.run(port, way != "session"))
    took = sorted(many.took) or [0]
    half, most = (1000 * took[int(share * (len(took) - 1))] for share in (0.5, 0.99))
    found = relay.json() if relay else {}
    kept = f"{100 * (1 - found['total_done_partings'] / len(took)):.0f}" if way == "transaction" else ""
    print(f"| {name} | {way} | {len(many.took) / many.seconds:.0f} | {len(many.served)} | {half:.1f} | {most:.1f} | {kept} |", flush=True)
    return many.wrong


def beside(crowd, paths):
    """The rows of pgbouncer, whose applications prepare nothing; what was wrong."""
    wrong = []
    for name, kind in KINDS.items():
        for mode in ("session", "transaction"):
            if kind[1]:
                continue
            with tempfile.TemporaryDirectory() as room:
                pool = pgbouncer.Pgbouncer(room, paths, mode, crowd[1])
                try:
                    wrong += line(crowd, name, f"pgbouncer, {mode}", kind, pool.port, application=pgbouncer.Application)
                finally:
                    pool.end()
    return wrong


def tables(program, crowd):
    """A crowd's table; what was wrong."""
    count, connections, thinks, seconds = crowd
    print(f"{count} applications on {connections} connections, each thinks {thinks} s on average, {seconds} s:\n")
    print("| What they do | By | Requests a second | Served | Median, ms | 99th of 100, ms | Not parted, of 100 requests |")
    print("|---|---|---|---|---|---|---|", flush=True)
    wrong = []
    for name, kind in KINDS.items():
        for way in ("direct", "session", "transaction"):
            if way == "direct" and count > CROWDS[0][0]:
                continue
            with served() as port:
                if way == "direct":
                    wrong += line(crowd, name, way, kind, port)
                else:
                    with Relay(program, port, "--most", str(connections), "--wait", "0", "--share", way) as relay:
                        wrong += line(crowd, name, way, kind, relay.port, relay)
    paths = pgbouncer.programs()
    if paths and count <= CROWDS[0][0]:
        wrong += beside(crowd, paths)
    print()
    return wrong


# ---- What a request takes where nobody waits

REQUESTS = 1_000


def instructions(program, port, way):
    """How many a request takes of the relay's own, by the difference of two runs; None without callgrind."""
    if not shutil.which("valgrind"):
        return None
    counts = [counted(program, port, way, requests) for requests in (REQUESTS, 3 * REQUESTS)]
    return (counts[1] - counts[0]) / (2 * REQUESTS)


def counted(program, port, way, requests):
    with tempfile.TemporaryDirectory() as room:
        with open(f"{room}/relay", "w", encoding="ascii") as it:
            it.write(f'#!/bin/sh\nexec valgrind -q --tool=callgrind --callgrind-out-file={room}/out {os.path.abspath(program)} "$@"\n')
        os.chmod(f"{room}/relay", 0o700)
        with Relay(f"{room}/relay", port, "--share", way) as relay:
            links = [connect(relay.port) for _ in range(8)]
            for link in links:
                link.sendall(with_features((1, b"")))
                message(link)
            ask = packets(BATCH, headers(0) + text_of("get a"), END)
            for number in range(requests):
                links[number % 8].sendall(ask)
                message(links[number % 8])
            relay.end()
        with open(f"{room}/out", encoding="ascii") as it:
            return int(re.search(r"(?m)^(?:totals|summary): (\d+)", it.read())[1])


def unhurried(program):
    """What a request takes by sessions and by transactions."""
    with served() as port:
        took = {way: instructions(program, port, way) for way in ("session", "transaction")}
    if None in took.values():
        print("Instructions are left out: valgrind isn't installed.")
    else:
        print(f"Instructions of a request where nobody waits: {took['session']:.0f} by sessions, {took['transaction']:.0f} by "
              f"transactions, {took['transaction'] / took['session']:.2f} of it.")


def share(program):
    """The tables; whether no answer was wrong."""
    wrong = [it for crowd in CROWDS for it in tables(program, crowd)]
    unhurried(program)
    print(f"\n{len(wrong)} wrong.")
    for it in wrong[:5]:
        print(f"  {it}")
    return not wrong
