"""Where bytes stop being JSON, and where a schedule is wrong, as `LINE:COLUMN: why`. Both count from 1, and a
column is a character. The first fault alone is told; `tdsview explain` tells all."""

import difflib
import json
import re

DEEPEST = 127

NUMBER = "0 to 4294967295"
FIELDS = {
    "L": f"a lease's number, {NUMBER}",
    "T": f"a ticket's number, {NUMBER}",
    "C": f"a connection's number, {NUMBER}",
    "N": f"a count of bytes, {NUMBER}",
    "I": "an isolation level, 0 to 5",
    "X": "a text of 1 to 2000 UTF-16 units",
}
EVENTS = {
    "lease": "", "resume": "T", "give_back": "L", "keep": "L", "abandon": "T", "clean": "C", "batch": "LX",
    "begin": "LI", "commit": "L", "rollback": "L", "send": "L", "cancel": "L", "work": "C",
    "to_server": "CN", "to_client": "CN", "cut": "C", "restart_server": "", "restart_client": "",
}
KEYS = ["version", "packet_size", "max", "events"]
LATE_KEY = "rollback_on_attention"


class Fault(Exception):
    """What is wrong, and how many characters stand before it."""

    def __init__(self, offset, why):
        super().__init__(why)
        self.offset, self.why = offset, why


def told(text, fault):
    line = text.count("\n", 0, fault.offset) + 1
    column = fault.offset - text.rfind("\n", 0, fault.offset)
    return f"{line}:{column}: {fault.why}"


def whole(digits):
    """A number in digits; of a very long one it counts only that it is too large."""
    return int(digits) if len(digits) < 30 else 10**30


def refuse(word):
    raise ValueError(word)


def similar(word, words):
    near = difflib.get_close_matches(word, words, 1)
    return f'; did you mean "{near[0]}"?' if near else "; the words are " + ", ".join(words)


DECODER = json.JSONDecoder(parse_constant=refuse)
# Of numbers that are so long that Python refuses them.
LONG_NUMBER = re.compile(r"\d{30}")
LONG_DECODER = json.JSONDecoder(parse_int=whole, parse_constant=refuse)
SPACE = re.compile(r"[ \t\r\n]*")


def too_deep(text):
    """Where more arrays and objects stand in one another than may, or None."""
    if text.count("[") + text.count("{") <= DEEPEST:
        return None
    depth = 0
    for found in re.finditer(r'"[^"\\]*(?:\\.[^"\\]*)*"|([\[{])|[\]}]', text, re.S):
        if found[1]:
            depth += 1
            if depth > DEEPEST:
                return found.start()
        elif found[0] in "]}":
            depth -= 1
    return None


def json_fault(data):
    """Why these bytes are no JSON, or None; and the text that they are."""
    try:
        text = data.decode("utf-8")
    except UnicodeDecodeError as error:
        front = data[: error.start].decode("utf-8")
        byte = data[error.start]
        return told(front, Fault(len(front), f"this byte, {byte:#04x}, is no UTF-8")), None
    if text.startswith("\ufeff"):
        return "1:1: it begins with a byte order mark", text
    at = too_deep(text)
    if at is not None:
        why = "more than 127 arrays and objects stand in one another"
        return told(text, Fault(at, f"this is no JSON: {why}")), text
    try:
        (LONG_DECODER if LONG_NUMBER.search(text) else DECODER).decode(text)
    except json.JSONDecodeError as error:
        why = error.msg[0].lower() + error.msg[1:]
        return told(text, Fault(error.pos, f"this is no JSON: {why}")), text
    except ValueError as error:
        at = re.search(r"\b" + re.escape(str(error).lstrip("-")), text)
        return told(text, Fault(at.start() if at else 0, f"this is no JSON: {error}")), text
    return None, text


def skip(text, at):
    return SPACE.match(text, at).end()


def parts_of(text, at):
    """The items of the array, or the keys and values of the object, that begins here: each with its place."""
    at, found = skip(text, at + 1), []
    while text[at] not in "]}":
        value, end = LONG_DECODER.raw_decode(text, at)
        found.append((value, at))
        at = skip(text, end)
        if text[at] in ",:":
            at = skip(text, at + 1)
    return found


def check_number(value, at, key, most, least, limits):
    if type(value) is not int or not least <= value <= most:
        raise Fault(at, f'"{key}" is a whole number, {limits}')


def check_outside(start, members):
    """Raises what is wrong outside of the events."""
    found = dict((key, (value, at)) for (key, _), (value, at) in members)
    version, at = found.get("version", (None, start))
    if type(version) is not int or version not in (1, 2, 3, 4):
        raise Fault(at, 'the key "version" is a number, 1 to 4')
    wanted = KEYS + [LATE_KEY] * (version >= 3)
    for (key, at), _ in members:
        if key not in wanted:
            raise Fault(at, f'version {version} has no key "{key}"{similar(key, wanted)}')
    for key in wanted:
        if key not in found:
            raise Fault(start, f'the key "{key}" is missing')
    check_number(*found["packet_size"], "packet_size", 32767, 512, "512 to 32767")
    check_number(*found["max"], "max", 64, 1, "1 to 64")
    if type(found["events"][0]) is not list:
        raise Fault(found["events"][1], '"events" is an array of events')
    if version >= 3 and type(found[LATE_KEY][0]) is not bool:
        raise Fault(found[LATE_KEY][1], f'"{LATE_KEY}" is true or false')
    return version, found["events"][1]


def takes(field, value):
    if field == "X":
        return type(value) is str and 1 <= len(value.encode("utf-16-le", "surrogatepass")) // 2 <= 2000
    return type(value) is int and 0 <= value <= (5 if field == "I" else 2**32 - 1)


def check_event(text, version, number, event, at):
    """Raises what is wrong with an event."""
    if type(event) is not list or not event:
        raise Fault(at, f"event {number}: an event is an array that begins with its word")
    (word, word_at), *fields = parts_of(text, at)
    if type(word) is not str or word not in EVENTS:
        near = similar(word if type(word) is str else "", list(EVENTS))
        raise Fault(word_at, f"event {number}: no event begins with {json.dumps(word)}{near}")
    wanted = EVENTS[word]
    if word in ("commit", "rollback") and len(fields) == 2:
        if version == 1:
            raise Fault(word_at, f'event {number}: "{word}" has a second value from version 2 on')
        wanted = "LI"
    if word == "clean" and version < 4:
        raise Fault(word_at, f'event {number}: "{word}" stands from version 4 on')
    if len(fields) != len(wanted):
        stands = ", ".join(FIELDS[it] for it in wanted) or "nothing"
        raise Fault(word_at, f'event {number}: behind "{word}" stands: {stands}; here are {len(fields)} values')
    for field, (value, value_at) in zip(wanted, fields):
        if not takes(field, value):
            raise Fault(value_at, f'event {number}: behind "{word}" stands {FIELDS[field]}')


def schedule_fault(text):
    """What is wrong first with a text that is JSON, or None."""
    start = skip(text, 0)
    try:
        if text[start] != "{":
            raise Fault(start, "a schedule is an object with the keys " + ", ".join(KEYS))
        parts = parts_of(text, start)
        version, at = check_outside(start, list(zip(parts[::2], parts[1::2])))
        events = parts_of(text, at)
        for number, (event, event_at) in enumerate(events, 1):
            check_event(text, version, number, event, event_at)
        if len(events) > 10000:
            raise Fault(events[10000][1], f"there are {len(events)} events; a play takes 10000")
    except Fault as fault:
        return told(text, fault)
    return None
