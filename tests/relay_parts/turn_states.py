"""Cases of tests/relay_turns: what a server tells of a session, and whether it tells anything.

Behind `pair.other()` the second application has asked. Whatever the first one then reads must be what its own server
would say, so what it has set must be there; and the second one must find nothing of it.
"""

from turn_pairs import kept, shared
from turn_sessions import LAST, TEXT, Vices


@shared()
async def nothing(pair):
    await pair.other()
    await pair.a.ask("get a")


@shared()
async def state_that_is_not_told(pair):
    await pair.a.ask("hide 7")
    await pair.other()


@kept(why="state 1")
async def setting(pair):
    await pair.a.ask("set a 1")
    await pair.other()
    await pair.a.ask("get a")


@kept()
async def setting_until_it_is_back(pair):
    await pair.a.ask("set a 1")
    await pair.other()
    await pair.a.ask("get a;set a 0")
    await pair.served()
    await pair.a.ask("get a")


@shared()
async def setting_that_is_back(pair):
    await pair.a.ask("set a 1")
    await pair.a.ask("set a 0")
    await pair.other()
    await pair.a.ask("get a")


@kept(why="state 5")
async def isolation_level(pair):
    await pair.a.ask("set level 1")
    await pair.other()
    await pair.a.ask("get level")


@shared(vices=Vices(hides_level=True, keeps_level=True))
async def isolation_level_that_a_reset_leaves(pair):
    """Nothing tells of it: the cleaning's text alone keeps it from the next one."""
    await pair.a.ask("set level 1")
    await pair.other()


@kept()
async def long_value(pair):
    await pair.a.ask("set text 300")
    await pair.other()
    await pair.a.ask("get text")


@kept(why="unrecoverable 9")
async def table(pair):
    await pair.a.ask("create b;put b 7")
    await pair.other()
    await pair.a.ask("sum b")


@kept(why="state 9")
async def table_and_then_another_state(pair):
    """The newest SESSIONSTATE can be recovered, and the table's can't."""
    await pair.a.ask("create b;put b 7")
    await pair.a.ask("set a 1")
    await pair.a.ask("set a 0")
    await pair.other()
    await pair.a.ask("sum b")


@shared()
async def table_that_is_dropped(pair):
    await pair.a.ask("create b;drop b")
    await pair.other()
    await pair.a.ask("sum b")


@kept(why="unrecoverable 10")
async def lock(pair):
    await pair.a.ask("lock")
    await pair.other()
    await pair.a.ask("unlock")
    await pair.served()


@kept(why="change 1")
async def database(pair):
    await pair.a.ask("use d2")
    await pair.other()
    await pair.a.ask("where")


@kept(why="change 2")
async def language(pair):
    await pair.a.ask("speak l2")
    await pair.other()
    await pair.a.ask("where")


@shared()
async def database_and_language_that_are_back(pair):
    await pair.a.ask("use d2;speak l2")
    await pair.a.ask("use d0;speak l0")
    await pair.other()
    await pair.a.ask("where")


# ---- Servers and applications by sessions


@kept(vices=Vices(is_silent=True))
async def no_acknowledgement(pair):
    await pair.other()


@kept(vices=Vices(is_unreadable=True))
async def state_that_cannot_be_read(pair):
    await pair.a.ask("set a 1")
    await pair.a.ask("set a 0")
    await pair.other()


@kept(vices=Vices(garbles=TEXT), why="unread")
async def one_state_that_cannot_be_read(pair):
    """The relay's questions are answered as they must be."""
    await pair.a.ask("set text 3")
    await pair.a.ask("set text 0")
    await pair.other()


@kept(vices=Vices(never_recovers=True))
async def state_that_is_never_recoverable(pair):
    await pair.a.ask("set a 1")
    await pair.a.ask("set a 0")
    await pair.other()


@kept(vices=Vices(is_of_session=True))
async def flag_of_the_whole_session(pair):
    await pair.a.ask("create b")
    await pair.a.ask("set a 1")
    await pair.a.ask("set a 0")
    await pair.other()
    await pair.a.ask("sum b")


@kept(vices=Vices(first=LAST))
async def last_number(pair):
    await pair.a.ask("set a 1;set b 1")
    await pair.a.ask("set a 0;set b 0")
    await pair.other()


@shared(vices=Vices(is_torn=True))
async def packets_that_end_anywhere(pair):
    await pair.a.ask("set a 1;use d2;rows 1 300;set text 300;create b")
    await pair.a.ask("set a 0;use d0;rows 1 300;set text 0;drop b")
    await pair.other()
    await pair.a.ask("get a;where;get text")


@kept(vices=Vices(is_torn=True))
async def setting_in_packets_that_end_anywhere(pair):
    await pair.a.ask("rows 1 300;set text 300")
    await pair.other()
    await pair.a.ask("get text")


@kept(asks=False)
async def recovery_that_is_not_asked_for(pair):
    """It is told no SESSIONSTATE, and keeps its connection until it leaves."""
    await pair.a.ask("set a 1")
    await pair.a.ask("set a 0")
    await pair.other()


@kept(brings=b"\x0d\0\0\0\2d\0001\0\0\2l\0000\0\0\0\0\0")
async def recovery_that_begins_anew(pair):
    """Who brings what is to be recovered isn't acknowledged."""
    await pair.other()


@kept(words=(), vices=Vices(is_silent=True))
async def by_sessions_where_nothing_is_said(pair):
    """The server that acknowledges nothing is how the relay looks from before: it asks for no feature."""
    await pair.a.ask("set a 1")
    await pair.a.ask("set a 0")
    await pair.other()


@kept(words=("--share", "session"), vices=Vices(is_silent=True))
async def by_sessions_where_it_is_said(pair):
    await pair.a.ask("set a 1")
    await pair.a.ask("set a 0")
    await pair.other()
