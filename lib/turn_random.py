"""Random applications before a relay that shares by transactions, and what they do (turn_applications)."""

import asyncio
import random
import time

from peers import PATIENCE
from turn_applications import EVERYTHING, Application, Wrong
from turn_tokens import (
    ACKNOWLEDGED, BATCH, END, EXECUTE, EXECUTE_SQL, PREPARE, PREPARE_AND_EXECUTE, RESET, RESET_BUT_TRANSACTION,
    UNPREPARE, done, headers, packets, text_of, tokens)


class Deeds:
    """What a random application does, each by its name; `often` says how often of a hundred."""

    often = dict(get=14, sets=4, clear=8, rows=8, table=4, lock=2, transaction=8, database=2, handles=3, executes=8, echo=5,
                 cancelled=8, resets=2, keeps=2, loads=3, idle=2, half=2, level=3, text=3, calls=1, hides=4, pause=4)

    def __init__(self, it, rng, think):
        self.it, self.rng, self.think = it, rng, think
        self.name = "a"
        # What it set that is never told: it may have lost that, and else finds the newest of it.
        self.untold = {"hidden": 0, "get level": 0}

    async def one(self):
        self.name = self.rng.choice("abc")
        action = self.rng.choices(list(self.often), list(self.often.values()))[0]
        await getattr(self, action)()
        return action

    async def pause(self):
        await asyncio.sleep(self.rng.random() * 2 * self.think)

    async def get(self):
        level = "" if self.it.vices.hides_level else ";get level"
        await self.it.ask(f"get a;get b;get c;get text;where;open{level}")

    async def sets(self):
        await self.it.ask(f"set {self.name} {self.rng.randrange(3)};get {self.name}")

    async def clear(self):
        level = "" if self.it.vices.hides_level else ";set level 0"
        await self.it.ask(f"set a 0;set b 0;set c 0;set t 0;set text 0;use d0;speak l0{level}")

    async def level(self):
        if self.it.vices.hides_level:
            return await self.unsure("set level {}", "get level")
        return await self.it.ask(f"set level {self.rng.randrange(2)}")

    async def hides(self):
        await self.unsure("hide {}", "hidden")

    async def unsure(self, sets, gets):
        """What its server never tells. It is its own, or as at the beginning, and never another's."""
        if self.rng.random() < 0.5:
            self.untold[gets] = self.rng.randrange(1, 1 << 30)
            return await self.it.ask(sets.format(self.untold[gets]))
        self.it.trace.append(gets)
        self.it.send(BATCH, text_of(gets))
        told = await self.it.hear()
        wanted = [[("columns", 1), ("row", value)] for value in (0, self.untold[gets])]
        if told[:2] not in wanted:
            raise Wrong(f"another's: {told}, wanted {wanted}, behind {self.it.trace[-8:]}")
        if told[1][1] == 0:
            self.untold[gets] = 0
        # What is late is told with this answer.
        return self.it.same(gets, told[2:], tokens(self.it.news() + done()))

    async def text(self):
        await self.it.ask(f"set text {self.rng.choice([0, 0, 200, 254, 255, 300, 3000])}")
        await self.pause()
        await self.it.ask("set text 0")

    async def rows(self):
        await self.it.ask(f"rows {self.rng.randrange(100_000)} {self.rng.randrange(1, 300)};get {self.name}")

    async def table(self):
        name = self.name
        await self.it.ask(f"create {name};put {name} {self.rng.randrange(99)}")
        for _ in range(self.rng.randrange(3)):
            await self.pause()
            await self.it.ask(self.rng.choice([f"sum {name}", f"put {name} 5;sum {name}", f"set {name} 1;set {name} 0"]))
        if self.rng.random() < 0.8:
            await self.it.ask(f"drop {name}")

    async def lock(self):
        await self.it.ask("lock")
        await self.pause()
        await self.it.ask("unlock")

    async def transaction(self):
        if self.it.own.descriptor:
            return await self.it.ask("rollback;set t 0;get t")
        await self.it.ask("begin")
        for _ in range(self.rng.randrange(3)):
            await self.pause()
            await self.it.ask(self.rng.choice(["set t 5;get t", "get t", "open", "rows 1 30"]))
        if self.rng.random() < 0.9:
            await self.pause()
            await self.it.ask(self.rng.choice(["commit", "rollback"]) + ";get t;set t 0")
        return None

    async def database(self):
        await self.it.ask(self.rng.choice([f"use d{self.rng.randrange(1, 4)}", f"speak l{self.rng.randrange(1, 4)}"]) + ";where")
        await self.pause()
        await self.it.ask("where;use d0;speak l0")

    async def handles(self):
        await self.it.call((self.rng.choice([PREPARE, PREPARE_AND_EXECUTE]), f"get {self.name};rows 1 3"))
        for _ in range(self.rng.randrange(3)):
            await self.pause()
            await self.it.call((EXECUTE, self.it.own.given))
        if self.rng.random() < 0.3:
            await self.it.call((UNPREPARE, self.it.own.given))
            await self.it.call((EXECUTE, self.it.own.given))

    async def calls(self):
        await self.it.call((EXECUTE_SQL, "get a"), (PREPARE, "get b"))
        await self.pause()
        await self.it.call((EXECUTE, self.it.own.given))

    async def executes(self):
        await self.it.call((self.rng.choice([EXECUTE_SQL, "sp_executesql"]), f"get {self.name};open"))

    async def echo(self):
        await self.it.call(("dbo.echo", self.rng.randrange(99)))

    async def cancelled(self):
        first, name = self.rng.randrange(100_000), self.name
        text = self.rng.choice([
            f"rows {first} {self.rng.randrange(20, 900)}",
            f"set {name} 2;rows {first} {self.rng.randrange(20, 400)};set {name} 0",
            f"rows {first} 60;set {name} 1;rows 5 200", f"rows 1 40;use d1;rows {first} 100;use d0",
            f"rows 1 40;create z;rows {first} 200;drop z", f"set {name} 1;rows {first} 100"])
        await self.it.finds(await self.it.cancelled(text, asyncio.sleep(self.rng.choice([0, self.rng.random() * 0.02]))))

    async def resets(self):
        await self.it.ask("get a;where;open", END | RESET)
        # What isn't told is gone, or a reset leaves it.
        self.untold["hidden"] = 0

    async def keeps(self):
        await self.it.ask("get a;where;open;get t", END | RESET_BUT_TRANSACTION)
        self.untold["hidden"] = 0

    async def loads(self):
        await self.it.ask("insert bulk t")
        if self.rng.random() < 0.7:
            await self.pause()
        await self.it.load(self.rng.randrange(1, 3000))
        await self.it.ask("set c 0")

    async def idle(self):
        self.it.same("a cancel of nothing", await self.it.cancels(), tokens(done(ACKNOWLEDGED)))

    async def half(self):
        self.it.send(BATCH, text_of("se"), 0)
        await self.idle()

    async def ends(self):
        """It ends behind a part of its request, or in the middle of its answer."""
        text = self.rng.choice(["set a 2;create q;begin;rows 1 400", "begin", "set b 1", "use d3", "hide 7;insert bulk t"])
        whole = packets(BATCH, headers(self.it.descriptor) + text_of(text))
        cut = self.rng.choice([len(whole), self.rng.randrange(len(whole) + 1)])
        self.it.writer.write(whole[:cut])
        await self.it.writer.drain()
        if cut == len(whole) and self.rng.random() < 0.5:
            await asyncio.wait_for(self.it.reader.read(self.rng.randrange(1, 60)), PATIENCE)
        self.it.writer.transport.abort()


class Random:
    """So many random applications for so long, one session behind another: what they did, and what was wrong."""

    def __init__(self, port, seed, vices, count, seconds):
        self.port, self.seed, self.vices, self.count, self.seconds = port, seed, vices, count, seconds
        self.wrong = []
        self.seen = dict(sessions=0, requests=0, cancelled=0, moved=0)

    async def session(self, place, rng):
        # Each fourth shares by sessions.
        it = Application(self.port, self.vices, place % 4 != 3)
        await it.connect()
        self.seen["sessions"] += 1
        actions = Deeds(it, rng, 0.005)
        await it.ask(EVERYTHING)
        process = it.process
        try:
            for _ in range(rng.randrange(1, 14)):
                await actions.pause()
                action = await actions.one()
                self.seen["cancelled"] += action == "cancelled"
                # By another connection than the one before: somebody had that meanwhile.
                self.seen["moved"] += it.process != process
                process = it.process
            if rng.random() < 0.3:
                return await actions.ends()
        finally:
            self.seen["requests"] += len(it.trace)
        return await it.leave()

    async def application(self, place):
        rng = random.Random(self.seed * 100_003 + place)
        until = time.monotonic() + self.seconds
        while time.monotonic() < until and not self.wrong:
            try:
                await self.session(place, rng)
            except (Wrong, OSError, asyncio.IncompleteReadError, asyncio.TimeoutError) as error:
                self.wrong.append(f"application {place}: {error!r}"[:2000])

    async def run(self):
        await asyncio.gather(*(self.application(place) for place in range(self.count)))
