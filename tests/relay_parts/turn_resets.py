"""Cases of tests/relay_turns: resets that applications ask for themselves.

What `pair.other()` is, turn_states says.
"""

import asyncio

from turn_pairs import APART, kept, shared, until
from turn_sessions import ends_with
from turn_tokens import BATCH, END, PREPARE, RESET, RESET_BUT_TRANSACTION, change, rows, text_of, tokens


@shared()
async def reset_behind_all_of_that(pair):
    await pair.a.call((PREPARE, "get b"))
    await pair.a.ask("set a 1;create b;use d2;lock;begin")
    await pair.a.ask("get a", END | RESET)
    await pair.other()
    await pair.a.ask("get a;sum b;where;open")


@shared()
async def reset_but_for_no_transaction(pair):
    await pair.a.ask("get a", END | RESET_BUT_TRANSACTION)
    await pair.other()
    await pair.a.ask("get a")


@kept(why="reset")
async def reset_to_come(pair):
    """It is asked for by the front of a request, behind which no answer begins."""
    whole = pair.a.begins(BATCH, text_of("get a" + " " * 5_000), END | RESET)
    pair.a.writer.write(whole[:8_192])
    await until(lambda: pair.server.is_begun_on(pair.a.process), "the front of a request")
    # It has waited itself for its connection: from one count of those that wait to the next some time passes.
    await asyncio.sleep(APART)
    await pair.other()
    pair.a.writer.write(whole[8_192:])
    pair.a.same("an answer", await pair.a.hear(), tokens(change(18, b"") + rows(0, 1) + ends_with("batch")))
    await pair.served()


@kept()
async def reset_while_another_waits(pair):
    """Behind its reset the other one is served, and so is itself, who is told of it."""
    await pair.a.ask("set a 1;create b;begin")
    await pair.other()
    await pair.a.ask("get a;sum b;open", END | RESET)
    await pair.served()
