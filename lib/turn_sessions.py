"""Sessions of a server that speaks session recovery, as statements change them, and what it answers.

A server (turn_server) has one such session for each connection; and each application (turn_applications) has one
beside it, which says what a server of its own would answer. What is told of a session is written from MS-TDS 2.2.7.21
and 2.2.7.9.
"""

import copy
import dataclasses
import itertools
import struct

from turn_tokens import (
    BY_NAME, COUNTED, DONE, DONE_PROCEDURE, EXECUTE, EXECUTE_SQL, IN_BATCH, MORE, PREPARE, PREPARE_AND_EXECUTE, UNPREPARE,
    change, done, error, info, return_status, returned_as, rows, session_state, state, text_of, wide_rows)

DATABASE, LANGUAGE = "d0", "l0"
# The states by their numbers: settings, the isolation level, a text; tables and locks, which have no value.
STATES = {1: "a", 2: "b", 3: "c", 4: "t", 5: "level", 6: "text"}
LEVEL, TEXT, TABLES, LOCKS = 5, 6, 9, 10
# What a relay asks before anybody shares: what its texts make, each a state of its own, which no application has; of these
# can be recovered the first two. It prepares this text, by a handle that no application is given.
MAKES = {
    "set lock_timeout 5": "setting",
    "set transaction isolation level serializable": "level",
    "create table #tdsrelay (n int)": "table",
    "declare tdsrelay cursor global for select 1": "cursor",
    "exec sp_getapplock @Resource = 'tdsrelay', @LockMode = 'Shared', @LockOwner = 'Session'": "lock",
}
MADE = {name: 20 + place for place, name in enumerate(MAKES.values())}
SELECT, BEGIN = "select 1", "begin transaction"
WAIT = "set lock_timeout 5; raiserror('tdsrelay', 0, 1) with nowait; waitfor delay '00:00:00.900'"
QUESTIONS = {*MAKES, SELECT, BEGIN, WAIT}
ASKED_HANDLE = 900
LAST = 0xFFFFFFFF
# Errors as SQL Server numbers them: no column list of a bulk load, a table that is there or isn't, no lock, no handle,
# no procedure, no memory, no transaction, one that is open, no statement; another transaction's descriptor.
NO_LOAD, IS_THERE, NO_TABLE, NO_LOCK, NO_HANDLE, NO_PROCEDURE = 4022, 2714, 208, 1223, 8179, 2812
NO_MEMORY, NOT_TO_COMMIT, NOT_TO_ROLL_BACK, IS_OPEN, NO_STATEMENT, OTHER_TRANSACTION = 701, 3902, 3903, 50001, 102, 3989


@dataclasses.dataclass(frozen=True)
class Vices:
    """What a server does otherwise than one that tells all in order."""

    # It doesn't acknowledge session recovery; or only to the first login.
    is_silent: bool = False
    forgets: bool = False
    # What a cancelled request has changed is told with the next answer.
    is_late: bool = False
    # The flag of a SESSIONSTATE is the whole session's, and not its own states'.
    is_of_session: bool = False
    # It says of each state that it can't be recovered.
    never_recovers: bool = False
    # A SESSIONSTATE says a longer value than it has; or only one that tells the state of this number.
    is_unreadable: bool = False
    garbles: int = 0
    # The isolation level isn't told; a reset leaves it as it is.
    hides_level: bool = False
    keeps_level: bool = False
    # What of a relay's questions isn't told (MADE, "transaction", "handle", "cancel", "reset", "behind"), is left by a reset,
    # or is refused with an error.
    hides: str = ""
    leaves: str = ""
    refuses: str = ""
    # The number of its first SESSIONSTATE: behind FFFFFFFF nothing can be recovered any more.
    first: int = 0
    # How it returns a handle (turn_tokens); and the first call that closes one fails.
    returns: str = "one"
    fails_to_close: bool = False
    # Its packets end anywhere; it takes its time between parts of rows.
    is_torn: bool = False
    is_slow: bool = False


class Session:
    """A session: statements are done one by one, and each gives the tokens that it answers."""

    def __init__(self, vices=Vices(), descriptors=None):
        self.vices = vices
        self.descriptors = descriptors or itertools.count(1)
        self.given = 0
        self.settings = {}
        # What a relay's questions have made.
        self.made = set()
        self.sequence = vices.first
        self.descriptor = self.before = 0
        self.reset(True)

    def copy(self):
        """Another one like it; descriptors are counted together."""
        other = copy.copy(self)
        other.settings, other.handles, other.said = dict(self.settings), dict(self.handles), dict(self.said)
        other.made = set(self.made)
        other.tables = {name: list(values) for name, values in self.tables.items()}
        return other

    # ---- What is told of it

    def values(self):
        """Of each state its value, and whether it can be recovered."""
        values = {number: (struct.pack("<i", self.settings[name]), True) for number, name in STATES.items()}
        values[TEXT] = (bytes(self.settings["text"]), True)
        values[TABLES] = (b"", not self.tables)
        values[LOCKS] = (b"", self.locks == 0)
        if self.vices.hides_level:
            del values[LEVEL]
        for name, number in MADE.items():
            if name != self.vices.hides:
                values[number] = (bytes([name in self.made]), name in ("setting", "level") or name not in self.made)
        return values

    def initial(self):
        """The states that a login is told."""
        return b"".join(state(number, value) for number, (value, _) in Session(self.vices).values().items())

    def news(self):
        """The SESSIONSTATEs of what has changed since they were asked for: first what can't be recovered."""
        now, out = self.values(), b""
        changed = [number for number in now if now[number] != self.said[number]]
        self.said = now
        groups = [(flag, [number for number in changed if now[number][1] == flag]) for flag in (False, True)]
        if self.vices.is_of_session:
            groups = [(all(flag for _, flag in now.values()), changed)]
        for is_recoverable, those in groups:
            if those:
                states = b"".join(state(number, now[number][0]) for number in those)
                if self.vices.is_unreadable or self.vices.garbles in those:
                    states = states[:-1]
                out += session_state(self.sequence, is_recoverable and not self.vices.never_recovers, states)
                self.sequence = min(self.sequence + 1, LAST)
        return out

    def reset(self, is_full):
        """RESETCONNECTION, or RESETCONNECTIONSKIPTRAN, which keeps the transaction and what that would restore."""
        kept = (self.descriptor, self.before, self.settings.get("t", 0))
        level = self.settings.get("level", 0) if self.vices.keeps_level else 0
        self.settings = dict.fromkeys(STATES.values(), 0) | {"level": level}
        self.made &= {self.vices.leaves}
        self.tables, self.locks, self.database, self.language = {}, 0, DATABASE, LANGUAGE
        self.handles, self.hidden, self.awaits_load, self.has_failed = {}, 0, False, False
        self.descriptor = self.before = 0
        self.said = self.values()
        if kept[0] and not is_full:
            self.descriptor, self.before, self.settings["t"] = kept

    def what_it_has(self):
        """All that statements depend on, but for what is never told."""
        settings = {name: value for name, value in self.settings.items()
                    if name != "level" or not self.vices.hides_level}
        return (sorted(settings.items()), self.database, self.language, sorted(self.tables.items()), self.locks,
                self.descriptor > 0, sorted(self.made))

    def digest(self):
        at = 17
        for byte in repr(self.what_it_has()).encode():
            at = (at * 31 + byte) % 1_000_003
        return at

    # ---- What is asked

    def question(self, text):
        """What a relay asks before anybody shares."""
        if text != SELECT and self.vices.refuses == ({WAIT: "cancel", BEGIN: "transaction"} | MAKES)[text]:
            yield error(NO_STATEMENT)
        elif text == WAIT:
            self.made.add("setting")
            yield info(50000)
            yield b""
        elif text == BEGIN:
            told = b"".join(self.do_begin())
            yield b"" if self.vices.hides == "transaction" else told
        elif text == SELECT:
            yield rows(1, 1)
        elif MAKES[text] == "table" and "table" in self.made:
            yield error(IS_THERE)
        else:
            self.made.add(MAKES[text])

    def batch(self, text):
        """The tokens of each statement."""
        if text in QUESTIONS:
            yield from self.question(text)
            return
        if self.awaits_load:
            self.awaits_load = False
            yield error(NO_LOAD)
        for kind, *words in map(str.split, filter(None, text.split(";"))):
            yield from getattr(self, f"do_{kind}", self.do_what_is_none)(*words)

    def load(self, data):
        """A bulk load (MS-TDS 2.2.6.1), behind the batch that announced it."""
        if self.awaits_load:
            self.settings["c"] = len(data) // 4
            self.awaits_load = False
        else:
            yield error(NO_LOAD)

    def calls(self, calls):
        """The tokens of several calls of one request, up to its end."""
        for at, (name, value) in enumerate(calls):
            if self.awaits_load:
                self.awaits_load = False
                yield error(NO_LOAD)
            yield from self.call(name, value)
            yield return_status()
            if at + 1 < len(calls):
                yield done(IN_BATCH | MORE, DONE_PROCEDURE)

    def call(self, name, value):
        name = BY_NAME.get(name, name)
        if name == PREPARE and value == SELECT and self.vices.refuses == "handle":
            yield error(NO_MEMORY)
        elif name == PREPARE and value == SELECT:
            self.handles[ASKED_HANDLE] = value
            yield b"" if self.vices.hides == "handle" else returned_as("one", ASKED_HANDLE)
        elif name in (PREPARE, PREPARE_AND_EXECUTE):
            self.given += 1
            self.handles[self.given] = value
            if name == PREPARE_AND_EXECUTE:
                yield from self.batch(value)
            yield returned_as(self.vices.returns, self.given)
        elif name in (EXECUTE, UNPREPARE) and value not in self.handles:
            yield error(NO_HANDLE)
        elif name == EXECUTE:
            yield from self.batch(self.handles[value])
        elif name == UNPREPARE and self.vices.fails_to_close and not self.has_failed and value != ASKED_HANDLE:
            self.has_failed = True
            yield error(NO_MEMORY)
        elif name == UNPREPARE:
            del self.handles[value]
        elif name in (EXECUTE_SQL, "sp_executesql"):
            yield from self.batch(value)
        elif name == "dbo.echo":
            yield rows(value, 1)
        else:
            yield error(NO_PROCEDURE)

    @staticmethod
    def do_what_is_none(*_):
        yield error(NO_STATEMENT)

    def do_set(self, name, *value):
        """A setting; and the text of a relay's cleaning, which sets the isolation level."""
        self.settings["level" if name == "transaction" else name] = 0 if name == "transaction" else int(value[0])
        yield from ()

    def do_get(self, name):
        yield rows(self.settings[name], 1)

    def do_use(self, name):
        old, self.database = self.database, name
        yield change(1, text_of(name), text_of(old))

    def do_speak(self, name):
        old, self.language = self.language, name
        yield change(2, text_of(name), text_of(old))

    def do_where(self):
        yield rows(int(self.database[1:]), 1) + rows(int(self.language[1:]), 1)

    def do_create(self, name):
        if name in self.tables:
            yield error(IS_THERE)
        else:
            self.tables[name] = []

    def do_drop(self, name):
        if self.tables.pop(name, None) is None:
            yield error(NO_TABLE)

    def do_put(self, name, value):
        if name in self.tables:
            self.tables[name].append(int(value))
        else:
            yield error(NO_TABLE)

    def do_sum(self, name):
        yield rows(sum(self.tables[name]), 1) if name in self.tables else error(NO_TABLE)

    def do_lock(self):
        self.locks += 1
        yield from ()

    def do_unlock(self):
        if self.locks == 0:
            yield error(NO_LOCK)
        self.locks = max(self.locks - 1, 0)

    def do_begin(self):
        if self.descriptor:
            yield error(IS_OPEN)
        else:
            self.descriptor, self.before = next(self.descriptors), self.settings["t"]
            yield change(8, struct.pack("<Q", self.descriptor))

    def do_commit(self):
        if not self.descriptor:
            yield error(NOT_TO_COMMIT)
        else:
            old, self.descriptor = self.descriptor, 0
            yield change(9, b"", struct.pack("<Q", old))

    def do_rollback(self):
        if not self.descriptor:
            yield error(NOT_TO_ROLL_BACK)
        else:
            old, self.descriptor, self.settings["t"] = self.descriptor, 0, self.before
            yield change(10, b"", struct.pack("<Q", old))

    def do_open(self):
        yield rows(int(self.descriptor > 0), 1)

    def do_rows(self, first, count):
        for at in range(0, int(count), 20):
            yield rows(int(first) + at, min(20, int(count) - at))

    def do_fill(self, count):
        yield wide_rows(int(count))

    def do_wait(self):
        """A server waits here until it is told to go on; a session that is beside an application doesn't."""
        yield b""

    def do_hide(self, value):
        """What is never told, though a reset clears it."""
        self.hidden = int(value)
        yield from ()

    def do_hidden(self):
        yield rows(self.hidden, 1)

    def do_insert(self, *_):
        """`insert bulk`: the load comes with the next request."""
        self.awaits_load = True
        yield from ()

    def do_digest(self):
        yield rows(self.digest(), 1)


def ends_with(kind, data=b""):
    """What ends an answer to a request of this kind."""
    return {"batch": done(), "calls": done(0, DONE_PROCEDURE), "load": done(COUNTED, DONE, len(data) // 4)}[kind]
