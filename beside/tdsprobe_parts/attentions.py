"""Attentions (MS-TDS 2.2.1.7), one at each place of an exchange."""

import time

from . import wire
from .registry import NOW, ROWS, STATE, STOP, VALUE, WAIT, probe
from .wire import BATCH, IGNORE, LAST, RESET

# Long enough for an answer of one row to be written, and not read.
A_WHILE = 0.5


def finish(session):
    """What acknowledges, what else comes, and where the session stands then."""
    session.acknowledged()
    session.rest()
    session.run(STATE)


@probe
def attention_when_idle(p):
    """Is an attention acknowledged where nothing was asked?"""
    s = p.session()
    s.attention()
    finish(s)


@probe
def attention_at_once(p):
    """A request and its attention in one write: does the request run, in how many messages is it answered?"""
    s = p.session()
    s.batch(f"select 1; {WAIT}", behind=STOP)
    finish(s)


@probe
def attention_in_a_wait(p):
    """Before any byte of the answer: is the acknowledgement alone?"""
    s = p.session()
    s.batch(WAIT)
    time.sleep(A_WHILE)
    s.attention()
    finish(s)


@probe
def attention_between_statements(p):
    """After a part of the answer came: does the acknowledgement end that message or stand in one of its own?"""
    s = p.session()
    s.batch(f"select 1; {NOW}; {WAIT}; select 2")
    s.hear(most=1)
    s.attention()
    finish(s)


@probe
def attention_in_rows(p):
    """In the midst of rows: is a row cut, does a DONE stand before the acknowledgement?"""
    s = p.session()
    s.batch(ROWS)
    s.hear(most=3)
    s.attention()
    finish(s)


@probe
def attention_in_a_value(p):
    """In the midst of one long value: is the token ended, cut, or followed by the acknowledgement?"""
    s = p.session()
    s.batch(VALUE)
    s.hear(most=3)
    s.attention()
    finish(s)


@probe
def attention_after_the_answer(p):
    """After the whole answer was read: is the acknowledgement a message of its own?"""
    s = p.session()
    s.run("select 1")
    s.attention()
    finish(s)


@probe
def attention_crosses_the_end(p):
    """After the answer was written and before it was read: are they two messages?"""
    s = p.session()
    s.batch("select 1")
    time.sleep(A_WHILE)
    s.attention()
    finish(s)


@probe
def attention_twice(p):
    """Two attentions in one write: is each acknowledged?"""
    s = p.session()
    s.batch(WAIT)
    time.sleep(A_WHILE)
    s.link.send(STOP + STOP, "two attentions")
    finish(s)


def half(session):
    """The first packets of a long batch, without its end. It gives the number of the packet that is to come."""
    data = wire.batch("select 1 --" + "x" * session.size, session.descriptor)
    cut = wire.packets(BATCH, data, size=session.size)
    session.link.send(b"".join(cut[:-1]), "half a batch")
    return len(cut)


@probe
def attention_in_half_a_request(p):
    """In the midst of a request's packets, without ending it: is it acknowledged, is the request forgotten?"""
    s = p.session()
    half(s)
    s.attention()
    finish(s)


@probe
def ignored_request_and_attention(p):
    """A request ended by an empty packet to be ignored, then an attention: how many answers come?"""
    s = p.session()
    number = half(s)
    s.link.send(wire.packet(BATCH, b"", LAST | IGNORE, number) + STOP, "ignore it, and an attention")
    finish(s)


@probe
def ignored_request(p):
    """A request ended by an empty packet to be ignored: is it answered at all?"""
    s = p.session()
    number = half(s)
    s.link.send(wire.packet(BATCH, b"", LAST | IGNORE, number), "ignore it")
    s.rest()
    s.run(STATE)


def in_transaction(p, settings):
    """An attention at an update's batch that waits, inside a transaction."""
    s = p.session()
    s.run(settings)
    s.manage(wire.begin())
    s.hear()
    s.batch(f"update {p.made.table} set v = v + 1; {WAIT}")
    time.sleep(A_WHILE)
    s.attention()
    finish(s)


@probe
def attention_in_a_transaction(p):
    """Inside a transaction: does it stay open, is anything told of it?"""
    in_transaction(p, "set xact_abort off")


@probe
def attention_under_xact_abort(p):
    """Inside a transaction under xact_abort: is it rolled back, and is ENVCHANGE 10 before or after the DONE?"""
    in_transaction(p, "set xact_abort on")


@probe
def attention_on_begin(p):
    """A begin and its attention in one write: is the transaction open, was it told?"""
    s = p.session()
    s.manage(wire.begin(), behind=STOP)
    finish(s)


@probe
def attention_on_commit(p):
    """A commit and its attention in one write: is the transaction committed, was it told?"""
    s = p.session()
    s.manage(wire.begin())
    s.hear()
    s.manage(wire.commit(s.descriptor), behind=STOP)
    finish(s)


@probe
def attention_on_a_reset(p):
    """A request with a reset and its attention in one write: is the reset done, was it told?"""
    s = p.session()
    s.run("create table #left (n int)")
    s.batch(WAIT, RESET, STOP)
    s.acknowledged()
    s.rest()
    s.run("select object_id('tempdb..#left')")


@probe
def attention_in_a_procedure(p):
    """In an RPC that waits: by which DONE is it acknowledged?"""
    s = p.session()
    s.call(wire.call(wire.EXECUTE_SQL, wire.words(WAIT)))
    time.sleep(A_WHILE)
    s.attention()
    finish(s)


@probe
def attention_in_a_procedures_rows(p):
    """In the rows of an RPC: which DONEs stand before the acknowledgement?"""
    s = p.session()
    s.call(wire.call(wire.EXECUTE_SQL, wire.words(ROWS)))
    s.hear(most=3)
    s.attention()
    finish(s)
