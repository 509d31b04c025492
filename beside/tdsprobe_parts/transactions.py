"""Transactions: how they begin and end, and how the server tells (MS-TDS 2.2.6.9, 2.2.7.9)."""

from . import wire
from .registry import STATE, probe


def began(p):
    s = p.session()
    s.manage(wire.begin())
    s.hear()
    return s


def asked(session, *requests):
    """Each transaction manager request with its answer. A request is made when the one before is answered."""
    for request in requests:
        session.manage(request(session.descriptor))
        session.hear()
    session.run(STATE)


@probe
def transaction_by_requests(p):
    """Begin and commit, begin and roll back by requests: which ENVCHANGEs with which values?"""
    asked(p.session(), wire.begin, wire.commit, wire.begin, wire.rollback)


@probe
def transaction_begun_twice(p):
    """A begin inside a transaction: is another 8 told, with which descriptor, and what does one commit leave?"""
    asked(began(p), wire.begin, wire.commit)


@probe
def transaction_nested_by_text(p):
    """`begin tran` twice, `commit` twice: which of them are told?"""
    s = p.session()
    for text in ("begin tran", "begin tran", "commit", "commit"):
        s.run(text)
    s.run(STATE)


@probe
def transactions_in_one_batch(p):
    """Begin, commit, begin, roll back in one batch: where do the ENVCHANGEs stand?"""
    p.session().run("begin tran; select 1; commit; begin tran; select 2; rollback")


@probe
def transaction_committed_and_begun(p):
    """A commit that begins the next transaction: one message, the end before the begin?"""
    asked(began(p), lambda descriptor: wire.commit(descriptor, begins=True))


@probe
def savepoints_by_requests(p):
    """A savepoint and the way back to it by requests: is any ENVCHANGE told?"""
    asked(began(p), lambda descriptor: wire.save(descriptor, "here"),
          lambda descriptor: wire.rollback(descriptor, "here"))


@probe
def savepoints_by_text(p):
    """`save tran` and `rollback tran NAME`: is any ENVCHANGE told?"""
    s = began(p)
    s.run("save tran here")
    s.run(f"update {p.made.table} set v = v + 1")
    s.run("rollback tran here")
    s.run(STATE)


@probe
def transaction_ended_by_xact_abort(p):
    """An error under xact_abort: is ENVCHANGE 10 told, where in the answer?"""
    s = began(p)
    s.run("set xact_abort on")
    s.run(f"update {p.made.table} set v = v + 1; select 1/0; select 2")
    s.run(STATE)


@probe
def transaction_doomed(p):
    """A transaction that can only be rolled back: what is told of it, and when the batch ends?"""
    s = began(p)
    s.run("set xact_abort on; begin try select 1/0 end try begin catch select xact_state() end catch")
    s.run(STATE)


@probe
def transaction_ended_in_a_procedure(p):
    """A rollback inside an RPC: is ENVCHANGE 10 told there, with error 266?"""
    s = began(p)
    s.call(wire.call(wire.EXECUTE_SQL, wire.words("rollback")))
    s.hear()
    s.run(STATE)


@probe
def transaction_ended_by_a_deadlock(p):
    """The victim of a deadlock: is ENVCHANGE 10 told, before or after error 1205?"""
    one, other = began(p), began(p)
    other.run("set deadlock_priority low")
    update = f"update {p.made.table} set v = v + 1 where n = "
    one.run(update + "1")
    other.run(update + "2")
    one.batch(update + "2")
    other.batch(update + "1")
    other.hear()
    other.run(STATE)
    one.hear()


@probe
def transaction_by_itself(p):
    """Autocommit off: is the transaction that a statement begins told as 8?"""
    s = p.session()
    s.run("set implicit_transactions on")
    s.run(f"update {p.made.table} set v = v + 1")
    s.run(STATE)
    s.run("rollback")


@probe
def descriptor_of_an_ended_transaction(p):
    """A request that names a transaction that has ended: which error, and does the connection live?"""
    s = began(p)
    ended = s.descriptor
    s.manage(wire.commit(ended))
    s.hear()
    s.descriptor = ended
    s.run("select 1")
    s.descriptor = 0
    s.run(STATE)


@probe
def descriptor_left_out(p):
    """A request that names no transaction inside one: does it run, and where?"""
    s = began(p)
    named, s.descriptor = s.descriptor, 0
    s.run(STATE)
    s.descriptor = named
    s.run(STATE)
