"""Cases of tests/relay_turns: what is asked: transactions, calls, bulk loads, cancels, and what is underway.

What `pair.other()` is, turn_states says.
"""

from turn_pairs import case, kept, shared
from turn_sessions import Vices, ends_with
from turn_tokens import (
    ACKNOWLEDGED, BATCH, CALL, END, EXECUTE, EXECUTE_SQL, PREPARE, PREPARE_AND_EXECUTE, RESET, RESET_BUT_TRANSACTION,
    UNPREPARE, calls_body, done, headers, packets, rows, text_of, tokens, wide_rows)


# ---- Transactions


@kept(why="transaction")
async def transaction(pair):
    await pair.a.ask("begin")
    await pair.other()
    await pair.a.ask("open;commit")
    await pair.served()
    await pair.a.ask("open")


@kept(why="untold")
async def transaction_that_a_reset_keeps(pair):
    """What a full reset would clear may be there still."""
    await pair.a.ask("begin")
    await pair.a.ask("open", END | RESET_BUT_TRANSACTION)
    await pair.a.ask("commit")
    await pair.other()
    await pair.a.ask("open")


@shared()
async def transactions_that_ended(pair):
    await pair.a.ask("begin")
    await pair.a.ask("commit")
    await pair.a.ask("begin")
    await pair.a.ask("rollback")
    await pair.other()
    await pair.a.ask("open")


# ---- Calls


@kept(why="handle")
async def prepared(pair):
    await pair.a.call((PREPARE, "get b"))
    await pair.other()
    await pair.a.call((EXECUTE, 1))


@kept()
async def prepared_and_executed(pair):
    await pair.a.call((PREPARE_AND_EXECUTE, "get b"))
    await pair.other()
    await pair.a.call((EXECUTE, 1))


@shared()
async def prepared_and_unprepared(pair):
    await pair.a.call((PREPARE, "get b"))
    await pair.a.call((EXECUTE, 1))
    await pair.a.call((UNPREPARE, 1))
    await pair.other()
    await pair.a.call((EXECUTE, 1))


@shared(vices=Vices(is_torn=True))
async def prepared_and_unprepared_by_names(pair):
    await pair.a.call(("sp_prepexec", "get b"))
    await pair.a.call(("sp_prepare", "get a"))
    await pair.a.call(("sp_execute", 1))
    await pair.a.ask("get a")
    await pair.a.call(("sp_unprepare", 2))
    await pair.a.call(("sp_unprepare", 1))
    await pair.other()
    await pair.a.call((PREPARE, "get c"))
    await pair.a.call((EXECUTE, 3))


@kept()
async def prepared_until_it_is_unprepared(pair):
    await pair.a.call((PREPARE_AND_EXECUTE, "get b"))
    await pair.other()
    await pair.a.call((UNPREPARE, 1))
    await pair.served()


@kept(why="handle")
async def one_of_two_unprepared(pair):
    await pair.a.call((PREPARE, "get b"))
    await pair.a.call((PREPARE, "get c"))
    await pair.a.call((UNPREPARE, 1))
    await pair.other()
    await pair.a.call((EXECUTE, 2))


@kept(why="handle")
async def unprepared_what_is_not_open(pair):
    """It closes none, and what it may have meant isn't clear."""
    await pair.a.call((UNPREPARE, 1))
    await pair.other()


@kept()
async def unprepared_twice(pair):
    await pair.a.call((PREPARE, "get b"))
    await pair.a.call((UNPREPARE, 1))
    await pair.a.call((UNPREPARE, 1))
    await pair.other()


@kept(vices=Vices(fails_to_close=True))
async def unprepared_in_vain(pair):
    """Its answer tells an error: the handle is open. Behind the next one it isn't."""
    await pair.a.call((PREPARE, "get b"))
    await pair.a.call((UNPREPARE, 1))
    await pair.other()
    await pair.a.call((EXECUTE, 1))
    await pair.a.call((UNPREPARE, 1))
    await pair.served()


def returned_otherwise(how):
    """A handle that isn't read: it is as if none were counted, up to a full reset."""
    async def action(pair):
        await pair.a.call((PREPARE, "get b"))
        await pair.a.ask("get a")
        await pair.other()
        await pair.a.ask("get a", END | RESET)
        await pair.served()
    action.__name__ = f"handle_returned_as_{how}"
    kept(vices=Vices(returns=how))(action)


for way in ("none", "two", "long", "named"):
    returned_otherwise(way)


@kept()
async def unprepared_in_one_request(pair):
    """Several calls in a message aren't read."""
    await pair.a.call((PREPARE, "get b"))
    await pair.a.call((UNPREPARE, 1), (EXECUTE_SQL, "get a"))
    await pair.other()


@kept(why="untold")
async def prepare_that_is_cancelled(pair):
    """Its handle may have been made."""
    pair.a.send(CALL, calls_body([(PREPARE_AND_EXECUTE, "rows 1 20;wait")]))
    await pair.waits()
    pair.a.same("a call", await pair.a.cancels(), tokens(rows(1, 20) + done(ACKNOWLEDGED)))
    await pair.a.ask("get a")
    await pair.other()


@shared()
async def as_many_handles_as_are_kept(pair):
    for _ in range(64):
        await pair.a.call((PREPARE, "get b"))
    for number in range(64):
        await pair.a.call((UNPREPARE, number + 1))
    await pair.other()


@kept()
async def more_handles_than_are_kept(pair):
    for _ in range(65):
        await pair.a.call((PREPARE, "get b"))
    for number in range(65):
        await pair.a.call((UNPREPARE, number + 1))
    await pair.other()


@kept()
async def prepared_and_then_asked(pair):
    await pair.a.call((PREPARE, "get b"))
    await pair.a.ask("get a")
    await pair.other()
    await pair.a.call((EXECUTE, 1))


@kept()
async def prepared_behind_another_call(pair):
    """A message of two calls, of which the first one's name alone is harmless."""
    await pair.a.call((EXECUTE_SQL, "get a"), (PREPARE, "get b"))
    await pair.other()
    await pair.a.call((EXECUTE, 1))


@shared()
async def executed(pair):
    await pair.a.call((EXECUTE_SQL, "get a"))
    await pair.a.call(("sp_executesql", "get a"))
    await pair.other()
    await pair.a.call((EXECUTE_SQL, "get a"))


@shared()
async def plain_name(pair):
    await pair.a.call(("dbo.echo", 5))
    await pair.other()
    await pair.a.call(("dbo.echo", 6))


@kept(why="untold")
async def name_of_the_system(pair):
    await pair.a.call(("sys.sp_other", 5))
    await pair.other()


# ---- Bulk loads


@kept(why="bulk")
async def load_to_come(pair):
    await pair.a.ask("insert bulk t")
    await pair.other()
    await pair.a.load(10)


@shared()
async def load_that_came(pair):
    await pair.a.ask("insert bulk t")
    await pair.a.load(10)
    await pair.a.ask("set c 0")
    await pair.other()
    await pair.a.ask("get c")


# ---- Cancels: their server waits until it is cancelled


async def cancelled(pair):
    """A batch whose server has changed a state, and hasn't changed it back."""
    return await pair.a.cancelled("set a 1;rows 1 20;wait;set a 0", pair.waits())


@kept(why="state 1")
async def cancelled_behind_a_setting(pair):
    possible = await cancelled(pair)
    await pair.other()
    await pair.a.finds(possible)
    await pair.a.ask("get a;set a 0")
    await pair.served()


@kept(vices=Vices(is_late=True))
async def cancelled_where_it_is_told_late(pair):
    """The server tells what it has changed with its next answer."""
    possible = await cancelled(pair)
    await pair.other()
    await pair.a.finds(possible)
    await pair.a.ask("get a;set a 0")
    await pair.served()


@kept(vices=Vices(is_late=True))
async def cancelled_and_asked_where_it_is_told_late(pair):
    await pair.a.finds(await cancelled(pair))
    await pair.other()
    await pair.a.ask("get a")


@kept(why="cancel")
async def cancelled_until_it_is_asked(pair):
    """One whole answer more is awaited, though nothing was changed."""
    possible = await pair.a.cancelled("rows 1 20;wait", pair.waits())
    await pair.other()
    await pair.a.finds(possible)
    await pair.served()


@shared()
async def cancelled_and_asked(pair):
    await pair.a.finds(await pair.a.cancelled("rows 1 20;wait", pair.waits()))
    await pair.other()
    await pair.a.ask("get a")


@kept()
async def cancelled_call(pair):
    """It may have made what isn't told."""
    pair.a.send(CALL, calls_body([(EXECUTE_SQL, "rows 1 20;wait")]))
    await pair.waits()
    pair.a.same("a call", await pair.a.cancels(), tokens(rows(1, 20) + done(ACKNOWLEDGED)))
    await pair.a.ask("get a")
    await pair.other()
    await pair.a.ask("get a")


@shared()
async def cancel_of_nothing(pair):
    pair.a.same("a cancel of nothing", await pair.a.cancels(), tokens(done(ACKNOWLEDGED)))
    await pair.other()
    await pair.a.ask("get a")


# ---- What is underway


@kept(why="answer")
async def answer_to_come(pair):
    pair.a.send(BATCH, text_of("wait;get a"))
    await pair.waits()
    await pair.other()
    pair.server.go_on()
    pair.a.same("an answer", await pair.a.hear(), tokens(rows(0, 1) + ends_with("batch")))
    await pair.served()


def most_of(name):
    """How many bytes the system keeps of one socket at most, in one direction."""
    with open(f"/proc/sys/net/ipv4/{name}", encoding="ascii") as it:
        return int(it.read().split()[2])


@kept(room=4096)
async def answer_that_is_not_read(pair):
    """It is more than all sockets on its way hold: what the server and the relay send, and what comes to the relay."""
    count = 1000 + (2 * most_of("tcp_wmem") + most_of("tcp_rmem")) // 1000
    pair.a.send(BATCH, text_of(f"fill {count}"))
    await pair.stuck()
    await pair.other()
    if await pair.a.message() != wide_rows(count) + ends_with("batch"):
        raise OSError("another answer")
    await pair.served()


@kept()
async def half_of_a_request(pair):
    whole = packets(BATCH, headers(0) + text_of("get a" + " " * 200), most=100)
    pair.a.writer.write(whole[:108])
    pair.is_only_kept = True
    await pair.other()
    pair.a.writer.write(whole[108:])
    pair.a.same("an answer", await pair.a.hear(), tokens(rows(0, 1) + ends_with("batch")))
    await pair.served()


@case(None)
async def part_of_a_packet(pair):
    """Nothing has gone on: it may be parted, or not."""
    whole = packets(BATCH, headers(0) + text_of("get a"))
    pair.a.writer.write(whole[:20])
    pair.is_only_kept = True
    await pair.other()
    pair.a.writer.write(whole[20:])
    pair.a.same("an answer", await pair.a.hear(), tokens(rows(0, 1) + ends_with("batch")))
    await pair.served()


@shared()
async def half_of_a_request_that_is_cancelled(pair):
    pair.a.writer.write(packets(BATCH, headers(0) + text_of("get"), 0))
    pair.a.same("its cancel", await pair.a.cancels(), tokens(done(ACKNOWLEDGED)))
    await pair.a.ask("get a")
    await pair.other()
    await pair.a.ask("get a")
