"""Scenes of tests/relay: a request of which more waits to be read than is kept while it doesn't go on.

What is wanted is written by hand.
"""

import statistics
import time

from peers import Relay, batch, connect, login, message, packet
from relay_applications import tokens

# The largest packet that an application may agree on, and the units of a text that fills more than half of one. Of a request that
# waits, 16,384 bytes are kept.
LARGEST, UNITS, TOO_LONG = 32_767, 10_000, 50005
# The relay looks each quarter of a second at what is due: the turns meet it at different times.
TURNS, APART, SOON = 9, 0.03, 0.03


def logged_in(port):
    link = connect(port)
    link.sendall(login(size=LARGEST))
    message(link)
    return link


def read_on(program, cases, server):
    """It is read on as it is lent a connection, not only when the relay looks next: a busy machine delays some turns."""
    waited = []
    for turn in range(TURNS):
        with Relay(program, server, 1) as relay:
            one, two = logged_in(relay.port), logged_in(relay.port)
            one.sendall(batch("rows 1 1"))
            message(one)
            two.sendall(batch("x" * UNITS))
            time.sleep(0.1 + turn * APART)
            one.close()
            begun = time.monotonic()
            told = tokens(message(two))
            waited.append(time.monotonic() - begun)
            cases.same("a request in one large packet is answered", told[2], [TOO_LONG])
    cases.check("it is read on at once", statistics.median(waited) < SOON, waited)


def read_on_behind_a_cancel(program, cases, server):
    """Who takes back what has gone on in part, and asks the next request at once, is read on as that is acknowledged."""
    # Two packets of a batch, more than fits into one, and the packet that takes them back (MS-TDS 2.2.3.1.2, the ignore bit).
    begun = batch("x" * UNITS, status=0) + packet(1, b"y" * 2 * UNITS, 0) + packet(1, b"", 3)
    waited = []
    with Relay(program, server, 1) as relay:
        link = logged_in(relay.port)
        link.sendall(batch("rows 1 1"))
        message(link)
        for turn in range(TURNS):
            time.sleep(turn * APART)
            asked = time.monotonic()
            link.sendall(begun + batch("x" * UNITS))
            cases.same("behind what was taken back the next is answered", tokens(message(link))[2], [TOO_LONG])
            waited.append(time.monotonic() - asked)
    cases.check("behind a cancel it is read on at once", statistics.median(waited) < SOON, waited)
