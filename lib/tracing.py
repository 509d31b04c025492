"""Reads the trace of a play, and looks whether it is the trace of its schedule and of its report's text.

It is written from docs/SCHEDULES.md and docs/PROTOCOL.md alone. A play is walked event by event: what a client must
have sent is spelled from what was asked; what came is read packet by packet, token by token; what was told, heard and
is underway is reckoned from that, and compared with what the trace says.
"""

import json
import re

from trace_packets import ALL_HEADERS, ATTENTION, BATCH, RESULT, Wrong, hold, message_of, packet, split, tokens_of

WAYS = ("to_server", "to_client")
CONNECTION = re.compile(
    r"connection (\d+) (idle|sending|reading|cancelling) (leased \d+|kept \d+|free|draining) descriptor (\d+)"
    r" mark (none|full|keep) server (\d+) (\S+) underway (\d+) (\d+)")


class Client:
    """What one connection's client must send, is told and hears."""

    def __init__(self, size):
        self.size, self.stage, self.descriptor, self.mark = size, "idle", 0, "none"
        self.request, self.packets, self.out, self.asked = None, [], 0, None
        self.came, self.columns, self.reset, self.acknowledges = b"", 0, None, False

    def state(self):
        return {"stage": self.stage, "descriptor": self.descriptor, "mark": self.mark}

    def mark_reset(self, reset):
        self.mark = "full" if "full" in (reset, self.mark) else reset

    def start(self, request, asked):
        hold(self.stage == "idle", "a request is asked while another is underway")
        kind, message = message_of(asked, 0 if self.mark == "full" else self.descriptor)
        room = self.size - 8
        parts = [message[it:it + room] for it in range(0, len(message), room)]
        bits = {"none": 0, "full": 8, "keep": 16}[self.mark]
        self.packets = [packet(kind, (it + 1 == len(parts)) | (bits if it == 0 else 0), it + 1, part)
                        for it, part in enumerate(parts)]
        self.stage, self.request, self.out, self.reset, self.kind = "sending", request, 0, self.mark, kind

    def send(self):
        hold(self.stage == "sending" and self.out < len(self.packets), "a packet is sent where none is due")
        self.out += 1
        if self.out == len(self.packets):
            self.stage = "reading"
        return self.packets[self.out - 1]

    def cancel(self):
        """What is answered, and what goes out."""
        attention = packet(ATTENTION, 1, 1, b"")
        if self.stage == "idle":
            return "nothing", b""
        if self.stage == "cancelling":
            return "already", b""
        if self.stage == "reading":
            self.stage = "cancelling"
            return "asked", attention
        if self.out == 0:
            self.stage = "idle"
            return "unsent", b""
        self.stage = "cancelling"
        return "asked", packet(self.kind, 3, self.out + 1, b"") + attention

    def take(self, data):
        """What is told of these bytes: the tokens' lines."""
        packets, self.came = split(self.came + data)
        told = []
        for it in packets:
            told += self.take_packet(it)
        return told

    def take_packet(self, it):
        hold(it[0] == RESULT and it[1] in (0, 1), "an answer's header")
        hold(self.stage in ("reading", "cancelling"), "an answer comes that nobody asked for")
        told, is_told = [], self.stage == "reading"
        found, self.columns = tokens_of(it[8:], self.columns)
        for line, change in found:
            if change:
                self.hear(*change)
            elif is_told:
                told.append(line)
            if line and line.startswith("done ") and not int(line[5:9], 16) & 1:
                self.acknowledges = bool(int(line[5:9], 16) & 0x20)
        if it[1] == 1:
            self.columns = 0
            if is_told or self.acknowledges:
                self.stage = "idle"
            self.acknowledges = False
        return told

    def hear(self, change, value):
        if change == 18:
            if self.reset == "full":
                self.descriptor = 0
            self.mark = "none"
        else:
            hold(change in (8, 9, 10), "an ENVCHANGE's type")
            self.descriptor = value if change == 8 else 0


class Server:
    """The session of one connection's server, by what it is asked and what it sends."""

    def __init__(self):
        self.descriptor, self.settings, self.due, self.message = 0, {}, [], []

    def hear(self, it):
        """A packet came. It answers whether it is an attention."""
        if it[0] == ATTENTION or it[1] & 2:
            self.due, self.message = [], []
            return it[0] == ATTENTION
        self.message.append(it)
        if it[1] & 1:
            text = b"".join(part[8:] for part in self.message)[ALL_HEADERS:]
            words = text.decode("utf-16-le", "replace").split(";") if it[0] == BATCH else [""]
            reset = {8: ["full"], 16: ["keep"]}.get(self.message[0][1] & 24, [])
            self.due, self.message = reset + words, []
        return False

    def put(self, it):
        """A packet goes out: a step of an answer, or an acknowledgement."""
        step = self.due.pop(0) if self.due else ""
        for line, change in tokens_of(it[8:], 16)[0]:
            if change and change[0] == 18:
                self.settings, self.descriptor = {}, 0 if step == "full" else self.descriptor
            elif change:
                self.descriptor = change[1] if change[0] == 8 else 0
            if step.startswith("set ") and line == "done 0001 0":
                self.settings[step.split()[1]] = int(step.split()[2])

    def state(self):
        return self.descriptor, ",".join(f"{key}={self.settings[key]}" for key in sorted(self.settings)) or "-"


class Connection:
    """A connection: its ends, who has it, and what was handed over and came, each way."""

    def __init__(self, size):
        self.client, self.server, self.place, self.is_cut = Client(size), Server(), "free", False
        self.handed, self.came = dict.fromkeys(WAYS, b""), dict.fromkeys(WAYS, b"")

    def underway(self):
        return tuple(len(self.handed[it]) - len(self.came[it]) for it in WAYS)


def read_trace(text):
    """The setup, the events each with its calls, and the requests of a trace's lines."""
    hold(text.endswith("\n"), "the last line has no end")
    lines = [json.loads(it) for it in text.splitlines()]
    setup, events, requests = lines[0], [], []
    for line in lines[1:]:
        if "call" in line:
            hold(events and line["event"] == len(events), "a call stands behind another event's line")
            events[-1][1].append(line)
        elif "event" in line:
            events.append((line, []))
            hold(line["event"] == len(events), "an event's number")
        else:
            requests.append(line)
            hold(line["request"] == len(requests), "a request's number")
    return setup, events, requests


def texts_of(events, requests):
    """The text of the report that a trace's lines have."""
    lines = [f"{it['event']} {it['outcome']}" for it, _ in events]
    for it in requests:
        lines += [f"request {it['request']} {it['outcome']}", *[f"  {token}" for token in it["told"]]]
    return "".join(f"{line}\n" for line in lines + (events[-1][0]["connections"] if events else []))


class Walk:
    """A walk along a play. `note` is called with each step of a client, for those who gather them."""

    def __init__(self, schedule, trace, note=lambda *it: None):
        self.schedule, self.note = schedule, note
        self.setup, self.events, self.requests = read_trace(trace)
        self.connections, self.leases, self.tickets, self.told = {}, {}, {}, {}

    def check(self, report):
        """Goes along the whole play; what is wrong is raised."""
        wanted = {it: self.schedule[it] for it in ("packet_size", "max")}
        wanted["rollback_on_attention"] = self.schedule.get("rollback_on_attention", False)
        hold(self.setup == wanted, "the setup")
        hold(len(self.events) == len(self.schedule["events"]), "how many events there are")
        hold(texts_of(self.events, self.requests) == report, "another text than the report's")
        for event, (line, calls) in zip(self.schedule["events"], self.events):
            try:
                self.step(event, line, calls)
            except Wrong as wrong:
                raise Wrong(f"event {line['event']}: {wrong}") from None
        for it in self.requests:
            hold(it["told"] == self.told.get(it["request"], []), f"what request {it['request']} is told")

    def step(self, event, line, calls):
        """One event: its calls are those that it must make, and the connections are as they must be then."""
        for it in calls:
            hold(it["failed"] is False, "a call over memory failed")
            hold(set(it) == {"event", "connection", "call", "failed"} | (
                {"direction", "bytes"} if it["call"] in ("send", "carry") else set()), "a call's keys")
        made = [(it["call"], it["connection"], it.get("direction"), bytes.fromhex(it.get("bytes", ""))) for it in calls]
        word, *rest = event
        outcome = line["outcome"]
        wanted = [] if outcome.startswith("refused ") else getattr(self, word)(outcome, made, *rest)
        hold(made == wanted, f"the calls are {made}, and not {wanted}")
        for what, number, way, data in made:
            if what == "send":
                self.hand(number, way, data)
        self.compare(line["connections"])

    def hand(self, number, way, data):
        link = self.connections[number]
        packets, rest = split(data)
        hold(packets and not rest, "what is handed over is no row of whole packets")
        hold(all(len(it) <= link.client.size for it in packets), "a packet is too long")
        link.handed[way] += data

    def compare(self, lines):
        """The connections' lines are what each is reckoned to be."""
        found = {}
        for it in lines:
            whole = CONNECTION.fullmatch(it)
            hold(whole, f"the line {it}")
            number, stage, place, descriptor, mark, server, settings, *underway = whole.groups()
            client = {"stage": stage, "descriptor": int(descriptor), "mark": mark}
            found[int(number)] = client, place, (int(server), settings), tuple(map(int, underway))
        for it in self.connections.values():
            if it.place == "draining" and it.client.stage == "idle":
                it.place = "free"
        wanted = {number: (it.client.state(), it.place, it.server.state(), it.underway())
                  for number, it in self.connections.items() if not it.is_cut}
        hold(found == wanted, f"the connections are {found}, and not {wanted}")

    # ---- What each event does, and the calls that it makes

    def lease(self, outcome, made):
        _, lease, _, number, how = outcome.split()
        number = int(number)
        self.leases[int(lease)] = number
        if how == "new":
            hold(number == len(self.connections) + 1, "the number of a new connection")
            self.connections[number] = Connection(self.schedule["packet_size"])
        self.connections[number].place = f"leased {lease}"
        if how == "new":
            self.note(number, "new", None, None)
            return [("open", number, None, b"")]
        self.mark(number, {"reused": "full", "resumed": "keep"}[how])
        return []

    def resume(self, outcome, made, ticket):
        hold(int(outcome.split()[3]) == self.tickets[ticket], "the connection of a ticket")
        return self.lease(outcome, made)

    def mark(self, number, reset):
        self.connections[number].client.mark_reset(reset)
        self.note(number, "mark_reset", reset, None)

    def give_back(self, outcome, made, lease):
        if outcome == "given back closed":
            return []
        number = self.leases[lease]
        self.connections[number].place = "draining"
        return self.stop(number, None)

    def stop(self, number, wanted):
        """A cancel, and the bytes that it sends."""
        client = self.connections[number].client
        is_sending = client.stage == "sending" and client.out == 0
        answer, out = client.cancel()
        hold(wanted in (None, answer), f"a cancel answers {wanted}, and not {answer}")
        if is_sending or answer != "nothing" or wanted:
            self.note(number, "cancel", None, (answer, out))
        return [("send", number, "to_server", out)] if out else []

    def keep(self, outcome, made, lease):
        ticket = outcome.split()[1]
        self.tickets[int(ticket)] = self.leases[lease]
        self.connections[self.leases[lease]].place = f"kept {ticket}"
        return []

    def abandon(self, outcome, made, ticket):
        self.connections[self.tickets[ticket]].place = "free"
        return []

    def clean(self, outcome, made, number):
        _, request, _, lease = outcome.split()
        self.leases[int(lease)] = number
        self.connections[number].place = "draining"
        self.mark(number, "full")
        self.ask(number, int(request), ["batch", "say clean"])
        out = self.connections[number].client.send()
        self.note(number, "send", None, ("last", out))
        return [("send", number, "to_server", out)]

    def ask(self, number, request, asked):
        self.connections[number].client.start(request, asked)
        self.told[request] = []
        self.note(number, "start", asked, None)

    def batch(self, outcome, made, lease, *rest, word="batch"):
        self.ask(self.leases[lease], int(outcome.removeprefix("asked ")), [word, *rest])
        return []

    def begin(self, outcome, made, lease, *rest):
        return self.batch(outcome, made, lease, *rest, word="begin")

    def commit(self, outcome, made, lease, *rest):
        return self.batch(outcome, made, lease, *rest, word="commit")

    def rollback(self, outcome, made, lease, *rest):
        return self.batch(outcome, made, lease, *rest, word="rollback")

    def send(self, outcome, made, lease):
        number = self.leases[lease]
        client = self.connections[number].client
        out = client.send()
        answer = "last" if client.stage == "reading" else "more"
        hold(outcome == f"sent {answer}", "whether more packets are to be sent")
        self.note(number, "send", None, (answer, out))
        return [("send", number, "to_server", out)]

    def cancel(self, outcome, made, lease):
        return self.stop(self.leases[lease], outcome.removeprefix("cancel "))

    def work(self, outcome, made, number):
        if outcome == "work idle":
            return []
        hold(len(made) == 1 and made[0][:3] == ("send", number, "to_client"), "a step sends one packet")
        packets, rest = split(made[0][3])
        hold(len(packets) == 1 and not rest, "a step sends one packet")
        hold(packets[0][1] == (outcome == "work finished"), "end of message stands on an answer's last packet")
        self.connections[number].server.put(packets[0])
        return made

    def come(self, number, way, outcome, made, most):
        """The bytes that must come: the next ones of what was handed over."""
        link = self.connections[number]
        count = min(most, len(link.handed[way]) - len(link.came[way]))
        hold(outcome == f"{way.replace('_', ' ')} {count}", "how many bytes come")
        data = link.handed[way][len(link.came[way]):][:count]
        link.came[way] += data
        brought = [it for it in made if it[0] == "carry"]
        hold(b"".join(it[3] for it in brought) == data, "what comes isn't the next of what was handed over")
        hold(all(it[1:3] == (number, way) and it[3] for it in brought), "a call that brings other bytes")
        return data, brought

    def to_server(self, outcome, made, number, most):
        link = self.connections[number]
        before = len(split(link.came["to_server"])[0])
        _, brought = self.come(number, "to_server", outcome, made, most)
        # The server acknowledges each attention that has come whole, in the same event.
        fresh = split(link.came["to_server"])[0][before:]
        attentions = sum(link.server.hear(it) for it in fresh)
        answers = [it for it in made if it[0] == "send"]
        data = b"".join(it[3] for it in answers)
        packets, _ = split(data)
        hold(len(packets) == attentions and len(answers) <= 1, "an attention is acknowledged once")
        for it in packets:
            last = tokens_of(it[8:], 0)[0][-1][0]
            hold(it[1] == 1 and last == "done 0020 0", "an acknowledgement")
            link.server.put(it)
        return brought + [("send", number, "to_client", data)] * bool(data)

    def to_client(self, outcome, made, number, most):
        data, brought = self.come(number, "to_client", outcome, made, most)
        client = self.connections[number].client
        told = client.take(data)
        self.told.setdefault(client.request, []).extend(told)
        self.note(number, "take", data, told)
        return brought

    def close(self, number):
        self.connections[number].is_cut = True
        self.note(number, "cut", None, None)
        return [("cut", number, None, b"")]

    def cut(self, outcome, made, number):
        return self.close(number)

    def restart_server(self, outcome, made):
        return [it for number, link in self.connections.items() if not link.is_cut for it in self.close(number)]

    restart_client = restart_server
