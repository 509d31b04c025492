"""An answer of 600 rows of one INTN in a packet, heard in one call, by a client and by a table; where its values stand, and these:
microseconds a row of the fastest packet of 350, by the clock of the wall: nobody else ran in it, and its request isn't in it."""

import time

from mouktelf import Client, Service
from mouktelf.rows import ROW, Columns

ROWS, TIMES = 600, 350
PACKET = bytes.fromhex("04010E33000001008101000000000009002604016E00" + "D10407000000" * ROWS + "FD1000C1000100000000000000")


def fewest(what, once, before=lambda: None):
    best = 1e9
    for _ in range(TIMES):
        before()
        begun = time.perf_counter()
        once()
        best = min(best, (time.perf_counter() - begun) / ROWS * 1e6)
    print(f"{best:.3f} microseconds a row, {what}", end="; ")


def asked():
    client.start_batch("a")
    client.send()


client, service = Client(4096), Service(1, 4096)
lease = service.lease().lease
asked()
own, tokens = PACKET[8:], client.hear(PACKET).tokens
rows = [own[it.start: it.start + it.length] for it in tokens if it.kind == ROW]
columns = Columns(own)
fewest(f"{len(tokens)} tokens heard by a client", lambda: client.hear(PACKET), asked)
fewest("by a client that tells nothing", lambda: client.follow(PACKET), asked)
fewest("by a table", lambda: service.hear(1, PACKET), lambda: service.ask_batch(lease, "a"))
fewest("places alone", lambda: [columns.places(row) for row in rows])
fewest("values alone", lambda: [columns.values(row) for row in rows])
run = b"".join(rows)
fewest("places of all in one call", lambda: columns.places_of_rows(run))
fewest("values of all in one call", lambda: columns.values_of_rows(run))
print()
