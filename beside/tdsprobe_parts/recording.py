"""A recording: one JSON file with every byte both ways. README.md beside it has its format."""

import datetime
import json

from . import wire

FORMAT, VERSION = "tdsprobe recording", 1
# How a SQL Server calls itself in LOGINACK (MS-TDS 2.2.7.14). Who calls itself otherwise is none; who calls itself
# so may be one, and the user's own words say which.
PROGRAM = "Microsoft SQL Server"


class Leaks(Exception):
    """The login's password stands in what was recorded."""


def new(server_is, session):
    """A recording without probes, of the server of this session."""
    ack = session.login.of(0xAD)[0].line
    is_claimed = f"'{PROGRAM}'" in ack
    return {
        "format": FORMAT,
        "version": VERSION,
        "begun": datetime.datetime.now(datetime.timezone.utc).isoformat(timespec="seconds"),
        "server": {"is": server_is, "calls_itself": ack.removeprefix("loginack "),
                   "evidence": "of the server that `is` names, by the user's word" if is_claimed
                               else "none: it doesn't call itself a SQL Server"},
        "login": {"encryption": session.encryption, "packet_size": session.size},
        "probes": [],
    }


def texts_of(recording):
    """All that a recording has: its bytes, and its texts."""
    for it in recording["probes"]:
        for events in it["connections"]:
            yield from (bytes.fromhex(event["hex"]) for event in events if "hex" in event)
    yield json.dumps(recording, ensure_ascii=False).encode("utf-8")


def check(recording, password):
    """Raises where the password can be read in the recording, in any spelling that is sent."""
    if not password:
        return
    spelled = (wire.text(password), wire.obscured(password), password.encode("utf-8"))
    for data in texts_of(recording):
        if any(it in data for it in spelled):
            raise Leaks("the login's password stands in what was recorded, as where a name is the same:"
                        " nothing is written")


def write(recording, path, password):
    check(recording, password)
    with open(path, "w", encoding="utf-8") as it:
        json.dump(recording, it, indent=1, ensure_ascii=False)
        it.write("\n")


def read(path):
    with open(path, encoding="utf-8") as it:
        recording = json.load(it)
    if (recording.get("format"), recording.get("version")) != (FORMAT, VERSION):
        raise ValueError(f"{path} is no {FORMAT} of version {VERSION}")
    return recording


def lines(recording):
    """A recording for a reader: each probe with what was sent, and the tokens of what came."""
    server = recording["server"]
    yield f"server: {server['is']}; it calls itself {server['calls_itself']}"
    yield f"evidence: {server['evidence']}"
    for it in recording["probes"]:
        yield ""
        yield f"{it['name']}: {it['asks']}"
        for number, events in enumerate(it["connections"], 1):
            for event in events:
                size = f", {len(event['hex']) // 2} bytes" if "hex" in event else ""
                yield f"  {number} {event['ms']:>9.1f} ms {event['way']}: {event['line']}{size}"
                yield from (f"      {line}" for line in event.get("tokens", []))
        yield f"  {it['ended']}"
