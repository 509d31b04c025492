"""Which events of a script of tdsserve have happened, by what its log tells of a connection (docs/SERVING.md)."""

import contextlib
import json
import re

# What an event of a script waits for: a cancel of its request, its request, or neither.
ABOUT_CANCELS = ("hold", "cross", "deaf")
OF_REQUESTS = ("cut", "late", "break", "answer", "answer_hex", "broken_hex")
# A line of the server's log about a connection.
LOGGED = re.compile(r"connection (\d+) (.*)")
REQUEST = re.compile(r'request (\d+) [a-z ]+ "(.*)" tx \d+')


class Happened:
    """What the server's log says of one connection, as far as a script's events can tell."""

    def __init__(self):
        self.requests, self.cancelled, self.others = {}, set(), set()

    def note(self, said):
        asked = REQUEST.fullmatch(said)
        if asked:
            self.requests[int(asked[1])] = json.loads(f'"{asked[2]}"')
        elif said.startswith("attention") and self.requests:
            self.cancelled.add(max(self.requests))
        elif said.startswith("logged in"):
            self.requests[0] = ""
        else:
            self.others.add(said.partition(":")[0] if said.startswith("closed") else said)

    def fits(self, request):
        """The numbers of the requests that an event speaks of, by a number or a text."""
        if isinstance(request, int):
            return {it for it in self.requests if it == request}
        front, wanted = request.endswith("*"), request.rstrip("*").lower() if request.endswith("*") else request.lower()
        return {number for number, text in self.requests.items()
                if number and (text.lower().startswith(wanted) if front else text.lower() == wanted)}

    def has(self, event):
        """Whether this event of the script has happened here."""
        word = event[0]
        if word in ABOUT_CANCELS:
            return bool(self.fits(event[1]) & self.cancelled)
        if word in OF_REQUESTS:
            return bool(self.fits(event[1]))
        if word == "split":
            return bool(self.requests)
        told = {"close": "closed", "refuse": "refused: by its script", "fail_reset": "reset failed, by its script"}
        return told.get(word) in self.others


def events_of(script):
    """The events of a script; none of what is no script, which the server refuses."""
    with contextlib.suppress(OSError, ValueError, TypeError):
        with open(script, encoding="utf-8") as it:
            return [event for event in json.load(it)["events"] if isinstance(event, list) and event]
    return []
