"""Schedules of pooled sessions: a text in, its report out."""

import json
from ctypes import byref, c_size_t, c_uint8
from typing import Any, Union

from ._library import LIBRARY

_PLAYED, _NO_ROOM = 0, 2


class NotPlayed(ValueError):
    """The line that says why a schedule isn't played, as `error: schedule 3`."""


def play(schedule: Union[str, bytes, Any]) -> str:
    """The report's text of a schedule: a file's text, or what stands for its JSON, as a dict.

    A release's wheel has the player; a package that was built of its sources hasn't (NotImplementedError)."""
    if not hasattr(LIBRARY, "tds_play"):
        raise NotImplementedError("this package was built of its sources, without the player: a release's wheel has it, and the program tdsplay plays")
    if not isinstance(schedule, (str, bytes)):
        schedule = json.dumps(schedule)
    text = schedule.encode() if isinstance(schedule, str) else schedule
    room, count = 1 << 16, c_size_t()
    while True:
        out = (c_uint8 * room)()
        status = LIBRARY.tds_play(text, len(text), out, room, byref(count))
        if status != _NO_ROOM:
            break
        room = count.value
    said = bytes(out[: count.value]).decode()
    if status != _PLAYED:
        raise NotPlayed(said.rstrip("\n"))
    return said
