"""Random schedules, by a seed."""

import random

EVENTS = 120
TEXTS = ["rows 1 3", "rows 7 40", "say hello", "set x 5", "get x", "begin", "commit", "rollback", "fail 70001",
         "begin;rows 1 2", "rows 1 2;commit", "nonsense", ";".join(["rows 1 9"] * 12), "say " + "a" * 200]


class Chance(random.Random):
    """What a play's events are drawn from. How many leases there were is known within bounds: an event of a
    lease is written for each that there may be, and those that name no one's are refused."""

    def __init__(self, seed):
        super().__init__(seed)
        self.connections = self.choice([1, 1, 1, 2, 3])
        self.first, self.least, self.most, self.tickets = 1, 0, 0, 0

    def leases(self):
        return range(self.first, self.most + 1)

    def connection(self):
        return self.randint(1, self.connections)

    def move(self):
        size = self.choice([1, 5, 8, 13, 21, 34, 100, 9999, 9999, 9999])
        if self.random() < 0.3:
            return [["send", it] for it in self.leases()]
        return [self.choice([["work", self.connection()], ["to_server", self.connection(), size],
                             ["to_client", self.connection(), size]])]

    def request(self):
        isolation = [self.randint(0, 5)] if self.random() < 0.3 else []
        word, *rest = self.choice([["batch", self.choice(TEXTS)], ["batch", self.choice(TEXTS)],
                                   ["begin", self.randint(0, 5)], ["commit", *isolation], ["rollback", *isolation]])
        return [[word, it, *rest] for it in self.leases()]

    def exchange(self):
        """A request on its way to its answer's end; some of its steps are left out."""
        connection = self.connection()
        events = [self.request(), *[[["send", it] for it in self.leases()]] * self.randint(1, 3)]
        events += [[["to_server", connection, 9999]], *[[["work", connection]]] * self.randint(1, 4)]
        events += [[["to_client", connection, 9999]]] * self.randint(1, 2)
        return [event for group in events if self.random() < 0.93 for event in group]

    def cancel(self):
        return [["cancel", it] for it in self.leases()]

    def ticket(self):
        """A transaction is kept, and taken up again, where there is one."""
        self.tickets += 1
        kept = [["keep", it] for it in self.leases()]
        self.most += 1
        return kept + [["resume", it] for it in range(1, self.tickets + 1)]

    def borrow_anew(self):
        """All leases end, what is underway is drained, and others begin."""
        events = [["give_back", it] for it in self.leases()] + [["abandon", it + 1] for it in range(self.tickets)]
        for connection in range(1, self.connections + 1):
            for way in ("to_server", "to_client"):
                events.append([way, connection, 9999])
        self.first = self.least + 1
        count = self.randint(1, self.connections)
        self.least, self.most = self.least + count, self.most + count
        return events + [["lease"]] * count

    def some(self):
        """Some events that belong together."""
        return self.choices([self.exchange, self.move, self.cancel, self.borrow_anew, self.ticket],
                            [24, 20, 5, 4, 1])[0]()


def random_schedule(seed, least=EVENTS):
    """A schedule in which no connection is cut, and an attention ends a transaction or doesn't."""
    chance = Chance(seed)
    events = chance.borrow_anew()
    while len(events) < least:
        fresh = chance.some()
        # What comes between a request's events is drawn too.
        while fresh:
            events.append(fresh.pop(0))
            if chance.random() < 0.1:
                events += chance.choice([chance.move, chance.move, chance.cancel])()
    return {"version": 3, "packet_size": chance.choice([512, 512, 600, 4096]), "max": chance.connections,
            "rollback_on_attention": chance.random() < 0.5, "events": events}


def with_losses(schedule, seed):
    """The same with a connection cut, all cut, or one cleaned, here and there, and with longer batches."""
    chance = random.Random(seed)
    events = []
    for event in schedule["events"]:
        if chance.random() < 0.02:
            number = chance.randint(1, schedule["max"])
            events.append(chance.choice([["clean", number], ["clean", number], ["cut", number], ["restart_server"]]))
        if event[0] == "batch" and chance.random() < 0.1:
            event = ["batch", event[1], "say \u00e9\u20ac\U0001d11e" * chance.randint(1, 60)]
        events.append(event)
    return {**schedule, "version": 4, "events": events}
