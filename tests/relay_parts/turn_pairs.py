"""Two applications on one connection before a tdsrelay that shares by transactions, for tests/relay_turns: behind what
the first one asks, is the second one served before the first one leaves?

What is wanted is written by hand.
"""

import asyncio
import concurrent.futures
import re
import time

from peers import PATIENCE
from relay_told import Relay
from turn_applications import EVERYTHING, Application
from turn_server import Server
from turn_sessions import Vices

SHARES = ("--share", "transaction")
# What a connection is cleaned by: a full reset, and this text (the reset leaves the isolation level as it is).
CLEANING = (9, "set transaction isolation level read committed")
# So often the relay and the server come round for somebody else, before it is said that nobody is served meanwhile.
ROUNDS = 6
# What is counted where somebody comes to wait: a word, and how often.
WAITED = re.compile(r"(?m)^tdsrelay_waits_behind_(\w+)_total (\d+)$")
# What the page says to a reader of each word for why, with the number of a state or of a change (ENVCHANGE's type).
SAID = {
    "unrecoverable 9": "what the server calls unrecoverable, as #t (StateId 9)",
    "unrecoverable 10": "what the server calls unrecoverable, as #t (StateId 10)",
    "state 1": "a setting or #t (StateId 1)",
    "state 5": "a setting or #t (StateId 5)",
    "state 9": "a setting or #t (StateId 9)",
    "change 1": "another database (ENVCHANGE 1)",
    "change 2": "another language (ENVCHANGE 2)",
    "unread": "something couldn't be read or kept",
    "transaction": "an open transaction",
    "reset": "a reset that isn't done",
    "untold": "what its server may not tell",
    "handle": "a prepared handle",
    "answer": "an answer that is due",
    "cancel": "a cancel, up to one more answer",
    "bulk": "a bulk load that may come",
}
# More seconds than pass at least from one count of those that wait to the next.
APART = 0.05
# So many scenes are played at once.
AT_ONCE = 8


async def until(is_so, what):
    """Waits until this is so."""
    end = time.monotonic() + PATIENCE
    while not (found := is_so()):
        if time.monotonic() > end:
            raise OSError(f"waited in vain: {what}")
        await asyncio.sleep(0.005)
    return found


class Pair:
    """The first application, who has asked once; the second one, who is logged in; and one that shares by sessions, whose
    answers show that relay and server have come round."""

    def __init__(self, relay, server, **who):
        self.relay, self.server = relay, server
        self.a, self.b = (Application(relay.port, server.vices, **who) for _ in range(2))
        self.clock = Application(relay.port, server.vices, asks=False, locale=1)
        # A request of its own has begun, of which nothing has gone out.
        self.is_only_kept = False
        self.found = self.task = self.waits_behind = None

    async def begin(self):
        for it in (self.a, self.b, self.clock):
            await it.connect()
        # The first answer behind a reset doesn't say which connection it is.
        await self.a.ask("get a")
        await self.a.ask("get a")

    def cleanings(self):
        """How often the first one's connection was cleaned."""
        return self.server.asked_on(self.a.process).count(CLEANING)

    def told(self):
        """Whether the relay says that the first one's connection rests; why it doesn't, a word and which state; and what its
        page says of that to a reader."""
        found = next((it for it in self.relay.json()["sockets"] if it.get("spid") == self.a.process), {})
        why = " ".join(str(found[name]) for name in ("why", "which") if name in found)
        said = re.search(rf" and doesn't rest, since: (.*), \d+ s.* \(SPID {self.a.process}, ", self.relay.ask("/")[1].decode())
        return bool(found.get("rests")), why, said and said[1]

    def waited(self):
        """How often the relay says that somebody came to wait, by the words for why."""
        return {word: int(count) for word, count in WAITED.findall(self.relay.ask("/metrics")[1].decode()) if count != "0"}

    async def rounds(self):
        for _ in range(ROUNDS):
            await self.clock.ask("get a")

    async def other(self):
        """The second one asks. Whether it is served (`shared`), or waits and the first one's connection stays its own
        while others are served (`kept`)."""
        before = self.cleanings()
        self.is_told_to_rest, *self.why = self.told()
        self.task = asyncio.ensure_future(self.b.ask(EVERYTHING))
        await until(lambda: self.task.done() or self.relay.json()["applications_waiting"] or self.cleanings() > before,
                    "the second one's request")
        await self.rounds()
        if not self.task.done() and self.cleanings() == before:
            self.found = "kept"
            self.waits_behind = self.waited()
        else:
            self.found = "shared"
            await self.served()

    async def served(self):
        """The second one has its answer, while the first one is there."""
        await asyncio.wait_for(asyncio.shield(self.task), 2 * PATIENCE)

    async def waits(self):
        """The server waits in the middle of an answer."""
        await until(lambda: self.server.is_waited_at, "the server's wait")

    async def stuck(self):
        """The server can send no more of an answer to the first one."""
        before = None
        while (unsent := await until(lambda: self.server.unsent_on(self.a.process), "what isn't read")) != before:
            before = unsent
            await self.rounds()

    async def end(self):
        """The first one leaves: the second one is served at last. Behind both nothing is left."""
        await self.a.leave()
        if self.task:
            await self.served()
        await self.b.leave()
        await self.clock.leave()
        await until(lambda: not self.relay.json()["connections_held"], "connections that nobody holds")
        await until(lambda: not self.server.left_over(), "sessions in which nothing is left")


CASES = []


def case(wanted, vices=Vices(), words=SHARES, why=None, **who):
    """An action of the first one, and what is wanted to be found where the second one asks; of one that is kept, the relay's
    word for why."""
    def add(action):
        CASES.append((action, wanted, vices, words, why, who))
        return action
    return add


def kept(**how):
    return case("kept", **how)


def shared(**how):
    return case("shared", **how)


async def played(pair, action):
    """Plays a case, and ends its applications whatever happens."""
    try:
        await pair.begin()
        await action(pair)
        await pair.end()
    finally:
        # Where the first one has met something wrong, what the second one is at doesn't matter.
        if pair.task and not pair.task.cancel() and not pair.task.cancelled():
            pair.task.exception()


def play(program, cases, action, wanted, vices, words, why, who):
    """One case, at a relay and a server of its own."""
    with Server(vices) as server, Relay(program, server.port, "--most", "1", *words) as relay:
        pair = Pair(relay, server, **who)
        asyncio.run(played(pair, action))
        is_so = pair.found in ([wanted] if wanted else ["kept", "shared"])
        cases.check(f"{action.__name__}: its connection is {wanted or 'kept or shared'}", is_so, pair.found)
        rests = pair.found == "shared" or pair.is_only_kept
        cases.same(f"{action.__name__}: the relay says whether it rests", pair.is_told_to_rest, rests)
        if why:
            cases.same(f"{action.__name__}: the relay says why", pair.why, [why, SAID[why]])
            cases.same(f"{action.__name__}: and counts it", pair.waits_behind, {why.split()[0]: 1})


def beside(cases, scenes):
    """Plays scenes, some at once: each mostly waits for its relay and its server."""
    with concurrent.futures.ThreadPoolExecutor(AT_ONCE) as threads:
        for done in [threads.submit(cases.scene, named(part, name), *words) for name, part, *words in scenes]:
            done.result()


def named(part, name):
    """The same scene, by this name where it fails."""
    def scene(*words):
        part(*words)
    scene.__name__ = name
    return scene


def pairs(program, cases):
    """All of them."""
    beside(cases, [(case[0].__name__, play, program, cases, *case) for case in CASES])
