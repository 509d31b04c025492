"""Resets (MS-TDS 2.2.3.1.2): what they do, what they leave, and how they are told."""

from . import wire
from .registry import STATE, probe
from .wire import BATCH, RESET, RESET_KEEP


def reset_after(p, *batches, reset=RESET):
    """A session in which these ran, the reset with the next request, and where it stands then, told twice."""
    s = p.session()
    for it in batches:
        s.run(it)
    s.run(STATE, reset)
    s.run(STATE)
    return s


def in_transaction(p, reset):
    s = p.session()
    s.manage(wire.begin())
    s.hear()
    s.run(f"update {p.made.table} set v = v + 1")
    s.run(STATE, reset)
    s.run(STATE)


@probe
def reset_plain(p):
    """What stands before and after ENVCHANGE 18 in the answer to the request that carries a reset?"""
    reset_after(p, "set nocount on; set ansi_nulls off; set rowcount 5")


@probe
def reset_in_a_transaction(p):
    """Does a reset end the transaction, and is its end told?"""
    in_transaction(p, RESET)


@probe
def reset_keeps_a_transaction(p):
    """Does a reset that keeps the transaction leave it open, with its descriptor?"""
    in_transaction(p, RESET_KEEP)


@probe
def reset_keeps_no_transaction(p):
    """What is answered to a reset that keeps the transaction where there is none?"""
    reset_after(p, reset=RESET_KEEP)


@probe
def reset_of_both_kinds(p):
    """What is answered where both bits are set?"""
    in_transaction(p, RESET | RESET_KEEP)


@probe
def reset_after_an_isolation_level(p):
    """Does the isolation level survive a reset?"""
    reset_after(p, "set transaction isolation level serializable")


@probe
def reset_after_a_begins_isolation_level(p):
    """Does the isolation level of a begin request survive its transaction, and a reset?"""
    s = p.session()
    s.manage(wire.begin(isolation=4))
    s.hear()
    s.manage(wire.commit(s.descriptor))
    s.hear()
    s.run(STATE)
    s.run(STATE, RESET)


@probe
def reset_under_an_application_role(p):
    """What does a reset come to under an application role: an error, the connection's end?"""
    reset_after(p, f"exec sp_setapprole '{p.made.role}', '{p.made.role_password}'")


@probe
def reset_under_another_user(p):
    """What does a reset come to under `execute as`?"""
    reset_after(p, f"execute as user = '{p.made.user}'")


@probe
def reset_in_another_database(p):
    """In which database is a session after a reset, and what is told of the change?"""
    reset_after(p, "use tempdb")


@probe
def reset_after_a_language(p):
    """Which language has a session after a reset, and what is told of the change?"""
    reset_after(p, "set language French")


@probe
def reset_of_what_is_left(p):
    """What becomes of temp tables, cursors, prepared statements and session context?"""
    s = p.session()
    s.run("create table #left (n int)")
    s.run("declare left_cursor cursor global for select 1; open left_cursor")
    s.run("exec sp_set_session_context 'left', 1")
    s.call(wire.call(wire.PREPARE_AND_EXECUTE, wire.integer(is_output=True), wire.words(""), wire.words("select 7")))
    s.hear()
    left = "select object_id('tempdb..#left'), cursor_status('global', 'left_cursor'), session_context(N'left')"
    s.run(left)
    s.run(left, RESET)
    s.call(wire.call(wire.EXECUTE, wire.integer(1)))
    s.hear()


@probe
def reset_on_a_later_packet(p):
    """Does a reset's bit count on a message's second packet?"""
    s = p.session()
    s.run("create table #left (n int)")
    data = wire.batch("select object_id('tempdb..#left') --" + "x" * s.size, s.descriptor)
    first, *others = wire.packets(BATCH, data, size=s.size)
    others = [it[:1] + bytes([it[1] | RESET]) + it[2:] for it in others]
    s.link.send(first + b"".join(others), "batch, a reset on its second packet")
    s.hear()


@probe
def reset_of_a_begin(p):
    """A begin with a reset: does 18 stand before 8?"""
    s = p.session()
    s.manage(wire.begin(), RESET)
    s.hear()
    s.run(STATE)


@probe
def reset_of_a_failing_request(p):
    """Is 18 told before the error of a request that fails?"""
    s = p.session()
    s.run("selec", RESET)
    s.run("select 1/0", RESET)
    s.run(STATE)


@probe
def reset_of_a_procedure(p):
    """Where does 18 stand in the answer to an RPC with a reset?"""
    s = p.session()
    s.call(wire.call(wire.EXECUTE_SQL, wire.words("select 1")), reset=RESET)
    s.hear()


@probe
def reset_by_procedure(p):
    """What does the RPC sp_reset_connection answer, is 18 among it, and what does it leave?"""
    s = p.session()
    s.manage(wire.begin())
    s.hear()
    s.run("create table #left (n int)")
    s.call(wire.call("sp_reset_connection"))
    s.hear()
    s.run(STATE)
