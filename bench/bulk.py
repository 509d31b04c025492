"""The bulk of bench/relay: answers of 100 MB, direct and through a relay, to a reader of bytes and to drivers; of 10 MB
to drivers that take seconds for these."""

import contextlib
import os
import signal
import socket
import statistics
import struct
import subprocess
import sys
import tempfile
import time

HERE = os.path.dirname(os.path.abspath(__file__))
from freetds import LOGGED_IN, PRELOGIN
from peers import Relay, batch, connect, exactly, login, message, packet
from processes import memory, processor
from wire_readers import READERS

TOTAL = 100_000_000
SLOW, LESS = ("go-mssqldb", "pymssql"), 10_000_000
# How many answers more a client's longer run has.
MORE = 4
ROWS = (("rows of 7 bytes", 4), ("rows of 1,003 bytes", 1000))
DONE = b"\xfd" + bytes(12)
NEWS = bytes.fromhex("e30300120000")
# What is asked for: a request without that text has an empty answer.
TEXT = "all rows"
# The seconds that a client has at most.
LONGEST = 120


def answer(width, total):
    """An answer of rows with a value of so many bytes, in packets of 4,096 bytes, and how many rows it has: a
    COLMETADATA of one BIGVARBINARY, rows, and a DONE in a packet of its own (MS-TDS 2.2.7.4, 2.2.7.19, 2.2.7.6)."""
    row = b"\xd1" + struct.pack("<H", width) + bytes(width)
    count = total // len(row)
    data = b"\x81" + struct.pack("<HIHBHB", 1, 0, 0, 0xA5, 8000, 0) + row * count
    parts = (packet(4, data[at:at + 4088], 0) for at in range(0, len(data), 4088))
    return b"".join(parts) + packet(4, DONE), count


def serve(link, stream):
    """One connection: logins are let in, and who asks for all rows gets them."""
    wanted = TEXT.encode("utf-16le")
    while True:
        header = exactly(link, 8)
        body = exactly(link, struct.unpack(">H", header[2:4])[0] - 8)
        news = NEWS if header[1] & 8 else b""
        if header[0] in (0x12, 0x10):
            link.sendall(packet(4, PRELOGIN if header[0] == 0x12 else LOGGED_IN))
        elif wanted not in body:
            link.sendall(packet(4, news + DONE))
        else:
            if news:
                link.sendall(packet(4, news, 0))
            link.sendall(stream)


@contextlib.contextmanager
def server(width, total=TOTAL):
    """A server of such rows, in processes of its own, as Relay takes one; and how many rows it gives."""
    stream, count = answer(width, total)
    listener = socket.create_server(("127.0.0.1", 0))
    child = os.fork()
    if child == 0:
        signal.signal(signal.SIGCHLD, signal.SIG_IGN)
        while True:
            link, _ = listener.accept()
            if os.fork() == 0:
                try:
                    serve(link, stream)
                except OSError:
                    os._exit(0)
            link.close()
    try:
        yield type("Place", (), {"port": listener.getsockname()[1]}), count
    finally:
        listener.close()
        os.kill(child, signal.SIGKILL)
        os.waitpid(child, 0)


def read_bytes(port):
    """How many MB a second come to who only reads bytes: the best of five answers."""
    link = connect(port)
    link.sendall(login())
    message(link)
    time.sleep(0.5)
    buffer = bytearray(1 << 20)
    end = packet(4, DONE)
    best = 0
    for _ in range(5):
        begun, got = time.perf_counter(), 0
        link.sendall(batch(TEXT))
        tail = b""
        while not (got >= TOTAL and tail[:8] == end[:8]):
            size = link.recv_into(buffer)
            if not size:
                raise OSError("closed")
            got += size
            tail = (tail + bytes(buffer[max(0, size - len(end)):size]))[-len(end):]
        best = max(best, got / (time.perf_counter() - begun) / 1e6)
    link.close()
    return best


def relays_of(program, beside, place, stack):
    """The relay that is measured, and the one that takes turns with it."""
    named = {"tdsrelay": program, **({"the other relay": beside} if beside else {})}
    return {name: stack.enter_context(Relay(it, place, 16)) for name, it in named.items()}


def through(program, beside, turns):
    """Prints what comes to who only reads bytes: the medians of turns."""
    print("| Answers of 100 MB | through | direct, MB/s | relay, MB/s | of direct | most memory, MB | processor, s |\n|---|---|---|---|---|---|---|")
    for what, width in ROWS:
        with server(width) as (place, _), contextlib.ExitStack() as stack:
            relays = relays_of(program, beside, place, stack)
            direct, got, took = [], {name: [] for name in relays}, dict.fromkeys(relays, 0)
            for turn in range(turns):
                direct.append(read_bytes(place.port))
                for name in list(relays)[::-1 if turn % 2 else 1]:
                    before = processor(relays[name].child.pid)
                    got[name].append(read_bytes(relays[name].port))
                    took[name] += (processor(relays[name].child.pid) - before) / 5 / turns
            for name, relay in relays.items():
                part = statistics.median(here / there for here, there in zip(got[name], direct))
                print(f"| {what} | {name} | {statistics.median(direct):.0f} | {statistics.median(got[name]):.0f} | {part:.2f} "
                      f"| {memory(relay.child.pid, 'VmHWM') / 1024:.1f} | {took[name]:.2f} |", flush=True)


def pymssql_of(_room, port):
    """pymssql's client, or nothing where no Python has it."""
    for python in ("/usr/bin/python3", sys.executable):
        with contextlib.suppress(OSError):
            if subprocess.run([python, "-c", "import pymssql"], capture_output=True, check=False).returncode == 0:
                return [python, f"{HERE}/reads_pymssql.py", str(port)], dict(os.environ)
    return None


DRIVERS = {**READERS, "pymssql": pymssql_of}


def seconds(made, times, count):
    """How long a client's process takes that asks once and so many times more, by the clock of the wall."""
    words, env = made
    begun = time.perf_counter()
    told = subprocess.run([*words, TEXT, str(times)], env=env, stdout=subprocess.PIPE, text=True, check=True, timeout=LONGEST).stdout
    took = time.perf_counter() - begun
    if int(told.split()[-1]) != count * (times + 1):
        raise OSError(f"{words[0]}: {told.strip()}, and not {count} rows an answer")
    return took


def drivers(program, beside, turns):
    """Prints what drivers get, which read row by row. A row that is lost ends it."""
    print("| Answers | of MB | read by | through | direct, MB/s | relay, MB/s | of direct |\n|---|---|---|---|---|---|---|")
    left_out = set()
    for what, width in ROWS:
        for name, make in DRIVERS.items():
            total = LESS if name in SLOW else TOTAL
            with (server(width, total) as (place, count), contextlib.ExitStack() as stack,
                  tempfile.TemporaryDirectory() as room):
                relays = relays_of(program, beside, place, stack)
                made = [make(tempfile.mkdtemp(dir=room), it.port) for it in (place, *relays.values())]
                if None in made:
                    left_out.add(name)
                    continue
                direct, *found = rates(made, turns, count, total)
                for through_it, rate in zip(relays, found):
                    print(f"| {what} | {total / 1e6:.0f} | {name} | {through_it} | {direct:.1f} | {rate:.1f} | {rate / direct:.2f} |", flush=True)
    for name in sorted(left_out):
        print(f"\n{name} is left out: it isn't installed.")


def rates(made, turns, count, total):
    """MB a second of each of these clients, which take turns: between the fastest run of one answer and that of some
    more lies the difference, which has no start and no login in it."""
    one, more = [[] for _ in made], [[] for _ in made]
    for _ in range(turns):
        for at, it in enumerate(made):
            one[at].append(seconds(it, 0, count))
            more[at].append(seconds(it, MORE, count))
    return [MORE * total / (min(long) - min(short)) / 1e6 for short, long in zip(one, more)]
