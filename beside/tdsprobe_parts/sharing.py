"""May connections of this server be shared by transactions? Each probe asks one thing of a session whose login asks for
session recovery (MS-TDS 2.2.6.4), and `verdicts` says from a recording what each answer means.

A relay that shares so parts an application from its connection between two requests, where the server's SESSIONSTATE
(2.2.7.21) and ENVCHANGE (2.2.7.9) say that the session is as its login left it. What a server doesn't tell is lost.
"""

import contextlib
import struct
import time

from . import tokens, wire
from .registry import PROBES, probe
from .wire import RESET, RESET_KEEP

# SESSIONRECOVERY, with no session that is to be recovered; and the end of the features.
RECOVERY = b"\x01\0\0\0\0\xff"
SESSIONSTATE = 0xE4
OPTIONS = "dbcc useroptions"
SET = "set lock_timeout 5"
BACK = "set lock_timeout -1"
# What is asked by a batch, and by another that takes it back: a probe's name, its question, both texts.
PAIRS = (
    ("lock_timeout", "Is a setting told, and its first value again?", SET, BACK),
    ("rowcount", "Is `set rowcount`?", "set rowcount 5", "set rowcount 0"),
    ("ansi_nulls", "Is an option that is on or off?", "set ansi_nulls off", "set ansi_nulls on"),
    ("isolation_level", "Is the isolation level?", "set transaction isolation level serializable",
     "set transaction isolation level read committed"),
    ("language", "Is the language?", "set language French", "set language us_english"),
    ("context_info", "Is `set context_info`?", "set context_info 0x01", "set context_info 0x"),
    ("session_context", "Is a key of the session context?", "exec sp_set_session_context 'sharing', 1",
     "exec sp_set_session_context 'sharing', null"),
    ("fmtonly", "Is `set fmtonly`?", "set fmtonly on", "set fmtonly off"),
    ("database", "Is another database?", "use tempdb", "use {database}"),
    ("temporary_table", "Is a temporary table unrecoverable until it is dropped?", "create table #sharing (n int)",
     "drop table #sharing"),
    ("global_temporary_table", "Is a global one?", "create table ##sharing (n int)", "drop table ##sharing"),
    ("cursor", "Is a cursor?", "declare sharing cursor global for select 1", "deallocate sharing"),
    ("application_lock", "Is an application lock?",
     "exec sp_getapplock @Resource = 'sharing', @LockMode = 'Exclusive', @LockOwner = 'Session'",
     "exec sp_releaseapplock @Resource = 'sharing', @LockOwner = 'Session'"),
    ("another_user", "Is `execute as`?", "execute as user = '{user}'", "revert"),
)


def pair(name, question, does, undoes):
    def run(p):
        s = p.session(RECOVERY)
        names = {"user": p.made.user, "database": p.server.database}
        s.run(does.format(**names))
        s.run(undoes.format(**names))
    run.__name__, run.__doc__ = f"sharing_{name}", question
    probe(run)


for it in PAIRS:
    pair(*it)


@probe
def sharing_prepare(p):
    """Is a handle of sp_prepare unrecoverable until sp_unprepare?"""
    s = p.session(RECOVERY)
    s.call(wire.call(wire.PREPARE, wire.integer(is_output=True), wire.words(""), wire.words("select 7")))
    s.hear()
    s.call(wire.call(wire.UNPREPARE, wire.integer(1)))
    s.hear()


@probe
def sharing_cancel(p):
    """When is told what a cancelled batch has set: before the acknowledgement, with it, or with a later answer?"""
    s = p.session(RECOVERY)
    s.batch(f"{SET}; waitfor delay '00:00:05'")
    time.sleep(0.3)
    s.attention()
    s.acknowledged()
    s.run("select 7")
    s.run(BACK)


def reset(p, bit):
    s = p.session(RECOVERY)
    s.run(OPTIONS)
    s.run(SET)
    s.run("set transaction isolation level serializable")
    s.run("create table #sharing (n int)")
    s.run(OPTIONS, bit)
    s.run("drop table #sharing")


@probe
def sharing_reset(p):
    """What does a reset leave, and is what it sets back told?"""
    reset(p, RESET)


@probe
def sharing_reset_that_keeps(p):
    """What does a reset that keeps the transaction leave?"""
    reset(p, RESET_KEEP)


@probe
def sharing_two_calls(p):
    """Has DONEPROC of each call of a message but the last the bit 0080 (MS-TDS 2.2.7.7)?"""
    s = p.session(RECOVERY)
    s.call(wire.call(wire.EXECUTE_SQL, wire.words("select 1")), wire.call(wire.EXECUTE_SQL, wire.words("select 2")))
    s.hear()


# What a recording says.

def states_in(data):
    """The states (SessionStateData) that stand one behind the other, by their numbers."""
    it, found = tokens.Reader(data), {}
    while it.place < len(data):
        number, size = it.number(1), it.number(1)
        found[number] = it.take(it.number(4) if size == 0xFF else size)
    return found


def feature_in(data, wanted):
    """The data of a feature that FEATUREEXTACK acknowledges, without its first byte; None where it doesn't."""
    it = tokens.Reader(data)
    while (number := it.number(1)) != 0xFF:
        value = it.take(it.number(4))
        if number == wanted:
            return value
    return None


class Told:
    """What a server has told of a session's states, from the login's answer on."""

    def __init__(self):
        self.initial, self.values, self.unrecoverable = None, {}, {}
        self.first, self.now, self.wrongs, self.number = {}, {}, [], None

    def hear(self, data):
        """Hears a message: the numbers of the states that it tells, None where an ENVCHANGE alone tells something."""
        news = []
        for it in tokens.Tokens(data).found:
            if it.kind == tokens.FEATUREEXTACK:
                found = feature_in(it.data[1:], 1)
                self.initial = self.initial if found is None else states_in(found)
            elif it.kind == SESSIONSTATE:
                news += self.states(it.data[5:])
            elif it.kind == tokens.ENVCHANGE and it.data[3] == 0x12:
                self.values, self.unrecoverable, self.now = {}, {}, {}
            elif it.kind == tokens.ENVCHANGE and it.data[3] in (1, 2, 3, 5, 6, 7):
                self.now[it.data[3]] = it.data[5:5 + it.data[4] * (1 if it.data[3] == 7 else 2)]
                news.append(f"ENVCHANGE {it.data[3]}")
        return news

    def states(self, body):
        try:
            (number, status), found = struct.unpack_from("<IB", body), states_in(body[5:])
        except (struct.error, tokens.Cut):
            self.wrongs.append("a SESSIONSTATE can't be read")
            return []
        if number == 0xFFFFFFFF:
            self.wrongs.append("a SESSIONSTATE has the number FFFFFFFF")
        elif self.number is not None and number != self.number + 1:
            self.wrongs.append(f"SESSIONSTATE {number} stands behind {self.number}")
        if len(body) > 8192:
            self.wrongs.append(f"a SESSIONSTATE has {len(body)} bytes: a relay keeps 8,192")
        self.number = number
        self.values |= found
        self.unrecoverable |= {it: not status & 1 for it in found}
        return [f"state {it}" for it in found]

    def login(self, data):
        """Hears the login's answer, which tells what is initial."""
        self.hear(data)
        self.first, self.now = self.now, {}

    def is_home(self):
        """Whether all that was told is as the login left it."""
        return (not any(self.unrecoverable.values()) and all(self.first.get(it) == value for it, value in self.now.items())
                and all((self.initial or {}).get(it) == value for it, value in self.values.items()))


def messages_of(events):
    """The data of the messages of one recorded connection: the login's answer, and those behind it."""
    found, data = [], b""
    for event in events:
        if event["way"] == "to client" and "hex" in event:
            packet = bytes.fromhex(event["hex"])
            data += packet[wire.HEADER:]
            if packet[1] & wire.LAST:
                found.append(data)
                data = b""
    for place, data in enumerate(found):
        if of(data, tokens.LOGINACK):
            return data, found[place + 1:]
    return b"", []


def of(data, kind):
    """The tokens of this kind of a message."""
    return [it for it in tokens.Tokens(data).found if it.kind == kind]


def errors_in(data):
    return [it.line for it in of(data, tokens.ERROR)]


def tells_reset(data):
    """Whether a message has ENVCHANGE 18."""
    return any(it.data[3] == 0x12 for it in of(data, tokens.ENVCHANGE))


def of_pair(told, answers):
    """Of what is done and taken back again."""
    if len(answers) != 2:
        return None, "the connection ended"
    if errors := errors_in(answers[0]):
        return None, f"it can't be asked here: {errors[0]}"
    news = told.hear(answers[0])
    if told.is_home():
        return False, "NOT TOLD: who has it loses it with the connection"
    how = "unrecoverable" if any(told.unrecoverable.values()) else "changed"
    told.hear(answers[1])
    if told.is_home():
        return True, f"told as {how} by {', '.join(news)}, and told back: its application keeps the connection until then"
    return True, f"told as {how} by {', '.join(news)}, and not told back: its application keeps the connection until a reset"


def of_handle(told, answers):
    """Of a prepared handle: a relay keeps the connection by what was called, whatever is told."""
    _, said = of_pair(told, answers)
    return True, f"{said.removeprefix('NOT TOLD: ')} (a relay goes by the call itself)"


def of_cancel(told, answers):
    """Of a batch that was cancelled: the place of the answer that tells what it has set."""
    places = []
    for data in answers:
        before = told.is_home()
        told.hear(data)
        places.append((any(it.acknowledges for it in tokens.Tokens(data).found), before, told.is_home()))
    first = next((at for at, it in enumerate(places) if it[1] and not it[2]), None)
    acknowledged = next((at for at, it in enumerate(places) if it[0]), None)
    if first is None or acknowledged is None:
        return False, "NOT TOLD, or not acknowledged: what a cancelled batch has set is lost with the connection"
    where = "before" if first < acknowledged else "with" if first == acknowledged else "behind"
    return True, f"told {where} the acknowledgement: a relay awaits one whole answer more"


def rows_in(data):
    """The rows of an answer with two texts a row, and how each reads."""
    found = {}
    for it in of(data, tokens.ROW):
        row = tokens.Reader(it.data, 1)
        with contextlib.suppress(tokens.Cut):
            found[it.data] = " ".join(row.wide().decode("utf-16-le", "replace") for _ in range(2))
    return found


def of_reset(told, answers):
    """Of a reset: what of the settings is left, and whether that is told."""
    if len(answers) != 6 or errors_in(answers[0]):
        return None, "it can't be asked here"
    for data in answers[:5]:
        told.hear(data)
    if not tells_reset(answers[4]):
        return False, "NOT TOLD: no ENVCHANGE 18"
    before, behind = rows_in(answers[0]), rows_in(answers[4])
    left = [behind[it] for it in behind if it not in before]
    if not errors_in(answers[5]):
        return False, "a temporary table is left: NO RESET, connections can't be shared at all"
    if left and told.is_home():
        return False, f"LEFT AND NOT TOLD: {'; '.join(left)}: the next application finds it"
    return True, f"told, left and told: {'; '.join(left)}" if left else "told, and nothing is left"


def of_calls(_, answers):
    """Of a message of two calls."""
    done = [it.status for data in answers for it in of(data, tokens.DONEPROC)]
    if len(done) != 2:
        return None, "it can't be asked here"
    if done[0] & 0x80:
        return True, "told: a relay that reads the first call's name alone knows of the second"
    return False, "NOT TOLD: a second call of a message isn't seen"


OTHERS = {"sharing_prepare": of_handle, "sharing_cancel": of_cancel, "sharing_reset": of_reset,
          "sharing_reset_that_keeps": of_reset, "sharing_two_calls": of_calls}


def verdicts(recording):
    """What a recording means for sharing by transactions: a line for each probe, and the whole."""
    wrongs, count = [], 0
    for it in recording["probes"]:
        if not it["name"].startswith("sharing_") or it["name"] not in PROBES or not it["connections"]:
            continue
        count += 1
        login, answers = messages_of(it["connections"][0])
        told = Told()
        told.login(login)
        if told.initial is None:
            yield "the login doesn't acknowledge session recovery: share by sessions"
            return
        is_right, said = OTHERS.get(it["name"], of_pair)(told, answers)
        for wrong in dict.fromkeys(told.wrongs):
            is_right, said = False, f"{said}; WRONG: {wrong}"
        if is_right is False:
            wrongs.append(it["name"].removeprefix("sharing_"))
        yield f"{it['name'].removeprefix('sharing_')}: {said}"
    if not count:
        yield "the recording has no probe of sharing"
    elif wrongs:
        yield f"share by sessions, because of: {', '.join(wrongs)}"
    else:
        yield "by these answers connections can be shared by transactions"
