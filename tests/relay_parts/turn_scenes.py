"""Scenes of tests/relay_turns with several applications: what goes out on connections, who goes on elsewhere, who leaves or
cancels while it is parted, connections that die, and who shares by sessions beside.

What is wanted is written by hand.
"""

import asyncio

from relay_told import Relay
from turn_applications import EVERYTHING, Application
from turn_pairs import APART, CLEANING, PATIENCE, ROUNDS, SHARES, beside, until
from turn_server import Server
from turn_sessions import Vices
from turn_tokens import ACKNOWLEDGED, BATCH, END, RESET, done, text_of, tokens

# It holds a connection for long; its connection has ended.
LATE_HOLD, LOST = 50102, 50109
SCENES = []


def scene(most=1, count=2, words=(), vices=Vices()):
    """A scene of so many applications that ask for session recovery, at a relay with so many connections."""
    def add(action):
        SCENES.append((action, most, count, words, vices))
        return action
    return add


def play(program, cases, action, most, count, words, vices):
    async def run(port, server, relay):
        ones = [await Application(port, server.vices).connect() for _ in range(count)]
        await action(cases, server, relay, *ones)
        for it in ones:
            await it.leave()
        await until(lambda: not server.left_over(), "sessions in which nothing is left")

    with Server(vices) as server, Relay(program, server.port, "--most", str(most), *SHARES, *words) as relay:
        asyncio.run(asyncio.wait_for(run(relay.port, server, relay), 4 * PATIENCE))


async def served(*tasks):
    """Whoever has asked is answered."""
    await asyncio.wait_for(asyncio.gather(*tasks), 2 * PATIENCE)


async def waits(relay, count=1):
    await until(lambda: relay.json()["applications_waiting"] == count, f"{count} in the wait queue")


async def is_ended(one, text, error=LOST):
    """Whether an application is told this at its next request, and then ends."""
    one.send(BATCH, text_of(text))
    told = await one.hear()
    return told[0] == ("error", error) and await one.reader.read() == b""


def cancels_nothing(one, told):
    one.same("a cancel of nothing", told, tokens(done(ACKNOWLEDGED)))


@scene()
async def on_the_wire(cases, server, relay, one, two):
    """What goes out on the connection of two in turn: a cleaning between, whose answer nobody is told."""
    await one.ask("get a")
    await one.ask("get b")
    await two.ask("get c")
    await one.ask("get t")
    await one.ask("get a")
    cases.same("there is one connection", list(server.peers), [one.process])
    texts = [asked if asked == CLEANING else asked[1] for asked in server.asked_on(one.process)]
    cases.same("what was asked there", texts, [CLEANING, "get a", "get b", CLEANING, "get c", CLEANING, "get t", "get a"])
    cases.same("what it was asked to recover", server.logins, [(one.process, b"")])
    found = relay.json()
    cases.same("each turn is counted", (found["groups"][0]["partings"], found["total_done_partings"]), (2, 2))


def counted(relay):
    """For what connections were held as somebody came to wait, and how many."""
    return {name: count for name, count in relay.json().items() if "waits_behind" in name and count}


@scene(count=4)
async def counts_who_comes_to_wait(cases, server, relay, one, two, three, four):
    """Each that comes to wait while a setting keeps the connection is counted, and who comes to wait while one rests isn't."""
    await one.ask("get a")
    await two.ask("set a 1")
    cases.same("none where it rests", counted(relay), {})
    late = []
    for it in (one, three, four):
        late.append(asyncio.ensure_future(it.ask(EVERYTHING)))
        await waits(relay, len(late))
        await asyncio.sleep(APART)
    cases.same("each is counted", counted(relay), {"total_waits_behind_state": 3})
    await two.ask("get a")
    cases.same("nobody comes meanwhile", counted(relay), {"total_waits_behind_state": 3})
    await two.ask("set a 0")
    await served(*late)
    cases.same("nor while they are served", counted(relay), {"total_waits_behind_state": 3})


@scene(most=2, count=3)
async def counts_each_connection(cases, server, relay, one, two, three):
    """Whoever comes to wait does so for either connection."""
    await one.ask("set a 1")
    await two.ask("begin")
    late = asyncio.ensure_future(three.ask(EVERYTHING))
    await waits(relay)
    cases.same("each is counted", counted(relay), {"total_waits_behind_state": 1, "total_waits_behind_transaction": 1})
    await two.ask("commit")
    await served(late)


@scene(most=2)
async def nobody_waits(cases, server, relay, one, two):
    """Who isn't waited for keeps its connection, and so does it while another one may be opened."""
    for it in (one, two):
        await it.ask("get a")
        await it.ask("get a")
    before = {process: server.asked_on(process).count(CLEANING) for process in server.peers}
    for _ in range(5):
        await one.ask("get a")
        await two.ask("get b")
    cases.same("each has a connection", sorted(server.peers), sorted((one.process, two.process)))
    after = {process: server.asked_on(process).count(CLEANING) for process in server.peers}
    cases.same("none is cleaned between", after, before)


@scene(most=2, count=3)
async def goes_on_elsewhere(cases, server, relay, one, two, three):
    """Who was parted goes on, on another connection, where no transaction is open."""
    for it in (one, two):
        await it.ask("begin;commit")
        await it.ask("get a")
    both = {one.process: one, two.process: two}
    await three.ask("begin")
    await three.ask("set t 5;get t")
    parted, other = both.pop(three.process), both.popitem()[1]
    await parted.ask("open;get t")
    await parted.ask("get a")
    cases.same("it goes on at the other one", (parted.process, three.process != other.process), (other.process, True))
    await other.ask("open;begin")
    await parted_waits(cases, relay, parted)
    await served(other.ask("commit"), parted.ask("open"))
    await three.ask("get t;rollback;get t")
    await served(*(it.ask(EVERYTHING) for it in (one, two, three)))


async def parted_waits(cases, relay, parted):
    """Both connections have a transaction: who was parted waits, and takes that back."""
    parted.send(BATCH, text_of("get a"))
    await waits(relay)
    cancels_nothing(parted, await parted.cancels())
    cases.same("who cancels waits no more", relay.json()["applications_waiting"], 0)


@scene(count=6)
async def all_in_turn(cases, server, relay, *ones):
    """Six on one connection, all at once, again and again; then each in a transaction."""
    for number in range(10):
        await served(*(it.ask(f"rows {place * 1000 + number} 30;get a") for place, it in enumerate(ones)))
    for _ in range(3):
        await served(*(in_transaction(it, place) for place, it in enumerate(ones)))
    cases.same("there is one connection", len(server.peers), 1)


async def in_transaction(it, place):
    await it.ask(f"get t;begin;set t {place}")
    await it.ask("get t")
    await it.ask("rollback;get t")


@scene()
async def leaves_while_it_is_parted(cases, server, relay, one, two):
    """It has no connection: nothing goes out for that."""
    await one.ask("get a")
    await two.ask("begin;set a 1")
    await two.ask("get a")
    before = server.asked_on(two.process)
    await one.leave()
    await until(lambda: [it["kind"] for it in relay.json()["sockets"]].count("application") == 1, "its end")
    for _ in range(ROUNDS):
        await two.ask("get a")
    cases.same("nothing else went out", server.asked_on(two.process), before + [(1, "get a")] * ROUNDS)
    await two.ask("open;commit")


@scene()
async def cancels_while_it_is_parted(cases, server, relay, one, two):
    """An attention reaches nobody else's request."""
    await one.ask("get a")
    two.send(BATCH, text_of("wait;get a"))
    await until(lambda: server.is_waited_at, "the server's wait")
    cancels_nothing(one, await one.cancels())
    one.send(BATCH, text_of("get a"))
    await waits(relay)
    cancels_nothing(one, await one.cancels())
    one.send(BATCH, text_of("get a"))
    await waits(relay)
    await one.leave()
    server.go_on()
    two.same("the other's answer", await two.hear(), tokens(b"".join(two.own.batch("wait;get a")) + done()))
    cases.same("none of these went out", server.cancels, 0)
    await two.ask(EVERYTHING)


@scene(count=3)
async def resets_while_it_is_parted(cases, server, relay, one, two, three):
    """Its own reset is told, whoever had its connection meanwhile."""
    await one.ask("get a")
    await two.ask("set a 1;set a 0")
    await one.ask("get a", END | RESET)
    await two.ask("get a", END | RESET)
    await three.ask("set b 1", END | RESET)
    late = [asyncio.ensure_future(it.ask(EVERYTHING, END | RESET)) for it in (one, two)]
    await waits(relay, 2)
    await three.leave()
    await served(*late)
    cases.same("there is one connection", len(server.peers), 1)


@scene()
async def connection_dies(cases, server, relay, one, two):
    """It takes who rests on it, and nobody else."""
    await one.ask("get a")
    await one.ask("get a")
    server.drop(one.process)
    await until(lambda: relay.json()["total_connections_ended"] == 1, "its end")
    cases.check("who rests there is told at its next request", await is_ended(one, "get a"))
    await two.ask(EVERYTHING)
    await two.ask("get a")
    cases.check("the next one has another", two.process != one.process)


@scene(count=3, vices=Vices(forgets=True))
async def connection_without_acknowledgement(cases, server, relay, one, two, three):
    """Behind the first connection, which was asked, the server tells nothing: who has the next one keeps it."""
    await one.ask("get a")
    await one.ask("get a")
    server.drop(one.process)
    await until(lambda: relay.json()["total_connections_ended"] == 1, "its end")
    two.is_told = three.is_told = False
    await two.ask("get a")
    await two.ask("get a")
    found = next(it for it in relay.json()["sockets"] if it.get("spid") == two.process)
    cases.same("the relay says why", (found["rests"], found["why"]), (False, "recovery"))
    late = asyncio.ensure_future(three.ask(EVERYTHING))
    await waits(relay)
    for _ in range(ROUNDS):
        await two.ask("get a")
    cases.same("and counts it", (late.done(), counted(relay)), (False, {"total_waits_behind_recovery": 1}))
    await two.leave()
    await served(late)


@scene()
async def connection_of_who_was_parted_dies(cases, server, relay, one, two):
    """Who was parted has nothing there any more."""
    await one.ask("get a")
    await two.ask("set a 1;get a")
    await two.ask("get a")
    server.drop(two.process)
    await until(lambda: relay.json()["total_connections_ended"] == 1, "its end")
    await one.ask(EVERYTHING)
    await one.ask("get a")
    cases.check("who was parted goes on at another", one.process != two.process)
    cases.check("who holds it is told at its next request", await is_ended(two, "get a"))


@scene()
async def connection_dies_in_a_turn(cases, server, relay, one, two):
    """In the cleaning: who waits is served by another one, and who was parted goes on."""
    await one.ask("get a")
    await one.ask("get a")
    died = one.process
    server.closes_at = CLEANING[1]
    await two.ask(EVERYTHING)
    await two.ask("get a")
    cases.check("who waited has another", two.process != died)
    await one.ask(EVERYTHING)
    await one.ask("get a")
    cases.same("and so has who was parted", one.process, two.process)


@scene()
async def by_sessions_beside(cases, server, relay, one, two):
    """Who doesn't ask for session recovery has other connections, without, and keeps its own."""
    three, four = [await Application(relay.port, asks=False).connect() for _ in range(2)]
    five = await Application(relay.port, brings=b"\0\0\0\0").connect()
    await three.ask("set a 1;set a 0;get a")
    await three.ask("set a 2")
    late = [asyncio.ensure_future(it.ask(EVERYTHING)) for it in (four, five)]
    await waits(relay, 2)
    for _ in range(ROUNDS):
        await served(one.ask("get a"), two.ask("get a"))
    cases.check("they wait", not any(it.done() for it in late))
    await three.ask("get a")
    await three.leave()
    await late[0]
    await four.leave()
    await late[1]
    await five.leave()
    cases.same("what logins ask to recover", sorted((it for _, it in server.logins), key=str), [None, b""])


@scene(words=("--hold", "1"))
async def held_too_long(cases, server, relay, one, two):
    """Who rests is parted, though nobody waits, and goes on; who has something there is told and ends."""
    await one.ask("get a")
    await two.ask("set a 1")
    await until(lambda: relay.json()["total_limits_hold"] == 1, "the limit")
    cases.check("who has a setting is told at its next request", await is_ended(two, "get a", LATE_HOLD))
    await one.ask(EVERYTHING)
    await until(lambda: not relay.json()["connections_held"], "who rests is parted")
    await one.ask(EVERYTHING)
    cases.same("nobody else met the limit", relay.json()["total_limits_hold"], 1)


@scene(words=("--total", "1"))
async def others_of_another_kind(cases, server, relay, one, two):
    """Where no connection more may be open at all, one that rests gives way to who shares others."""
    three = await Application(relay.port, locale=1).connect()
    await one.ask("get a")
    await three.ask(EVERYTHING)
    await one.ask("set a 1")
    late = asyncio.ensure_future(three.ask(EVERYTHING))
    await waits(relay)
    await two.leave()
    await one.ask("get a;set a 0")
    await served(late)
    await one.ask(EVERYTHING)
    cases.same("there is one connection", len(server.peers), 1)
    await three.leave()


def from_file(program, cases, room):
    """By its name in the file."""
    path = f"{room}/turns.toml"
    with open(path, "w", encoding="ascii") as file:
        file.write('share = "transaction"\nmost = 1\n')

    async def run(port):
        one, two = [await Application(port).connect() for _ in range(2)]
        for it in (one, two, one):
            await it.ask("get a")
        await one.leave()
        await two.leave()

    with Server() as server, Relay(program, server.port, "--config", path) as relay:
        asyncio.run(run(relay.port))
        cases.same("by a file, there is one connection", len(server.logins), 1)


def scenes(program, cases, room):
    """All of them, some at once."""
    beside(cases, [*((it[0].__name__, play, program, cases, *it) for it in SCENES),
                   ("from_file", from_file, program, cases, room)])
