"""How answers end (MS-TDS 2.2.7.6 to 2.2.7.8), what else is told in them, and errors that end a connection."""

import struct

from . import wire
from .registry import probe
from .wire import BATCH


@probe
def answers_to_batches(p):
    """Which DONEs end rows, counts, texts, procedures, errors and an empty batch?"""
    s = p.session()
    for text in ("select @@version", "select 1 where 1 = 0", "select 1; select 2", f"update {p.made.table} set v = v",
                 "print 'now'", "declare @n int", "exec sp_executesql N'select 1'", "select 1; select 1/0; select 2",
                 "selec", " "):
        s.run(text)


@probe
def answers_over_packets(p):
    """Rows longer than what is left of a packet: do tokens go over packets' ends?"""
    p.session().run("select top 8 n = a.object_id, v = replicate(N'x', 1500) from sys.all_columns a")


@probe
def answers_of_types(p):
    """Nulls, dates, decimals, long values and sorted rows: which types and tokens?"""
    p.session().run("select top 3 a.object_id, nullif(a.column_id, 1), a.is_nullable, sysdatetime(),"
                    " cast(1.5 as decimal(9, 2)), newid(), cast(a.name as nvarchar(max))"
                    " from sys.all_columns a order by a.column_id")


@probe
def answers_to_procedures(p):
    """How does an RPC's answer end: rows, an error, an unknown procedure?"""
    s = p.session()
    for called in (wire.call(wire.EXECUTE_SQL, wire.words("select 1")),
                   wire.call(wire.EXECUTE_SQL, wire.words("select 1/0")), wire.call("sp_who_knows")):
        s.call(called)
        s.hear()


@probe
def answers_to_two_calls(p):
    """Two calls in one RPC message, the first failing: where does each end?"""
    s = p.session()
    calls = [wire.call(wire.EXECUTE_SQL, wire.words(text)) for text in ("select 1/0", "select 2")]
    s.call(*calls)
    s.hear()


@probe
def answers_to_prepared_statements(p):
    """Prepare, execute, unprepare: handle, RETURNVALUE and DONEs."""
    s = p.session()
    s.call(wire.call(wire.PREPARE_AND_EXECUTE, wire.integer(is_output=True), wire.words("@n int"),
                     wire.words("select @n"), wire.integer(7)))
    s.hear()
    s.call(wire.call(wire.EXECUTE, wire.integer(1), wire.integer(8)))
    s.hear()
    s.call(wire.call(wire.UNPREPARE, wire.integer(1)))
    s.hear()


@probe
def changes_of_environment(p):
    """`use` and `set language`: which ENVCHANGEs and INFOs?"""
    s = p.session()
    for text in ("use tempdb", "set language German", "set language us_english"):
        s.run(text)


@probe
def error_of_class_20(p):
    """An error of class 20, if the login may raise one: which tokens, is there a DONE, how does the connection end?"""
    s = p.session()
    s.run("raiserror('tdsprobe', 20, 1) with log")
    s.run("select 1")


@probe
def error_of_a_broken_request(p):
    """Headers whose length lies: which error of which class, and how does the connection end?"""
    s = p.session()
    s.send(BATCH, struct.pack("<I", 9999) + wire.batch("select 1")[4:])
    s.hear()
    s.run("select 1")


@probe
def error_of_an_unknown_message(p):
    """A message of a type that isn't of the protocol: which error, if any, and how does the connection end?"""
    s = p.session()
    s.link.send(wire.packet(0x7A, b"tdsprobe"), "a message of type 7a")
    s.rest()
    s.run("select 1")
