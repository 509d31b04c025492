"""What is measured beside what: of each thing what it is called, this repository's program, the one beside it, and how many
bytes or requests one time has. Each gives what it counted, so that both are seen to do the same."""
import os
import typing

HERE = os.path.dirname(os.path.realpath(__file__))
ANSWERS = {
    "rows1.4096": "rows of one column", "rows8.4096": "rows of eight columns", "small.4096": "packets of 26 bytes, two tokens each",
}
# A walk of this repository's, the one in plain C that does as much, and whether both count the same.
WALKS = {"packets": ("packets found", "packets", True), "tokens": ("tokens, lent", "tokens", True),
         "rows": ("rows in runs, values summed", "values", False), "values": ("heard by a client, values summed", "values", False),
         "take": ("tokens in memory of their own", "values", False)}
FROM_C = ("packets", "tokens", "rows", "values")
REQUESTS = {"asks_say": "`say hello`", "asks_get": "`get a`", "asks_rows": "`rows 1 64`", "asks_begin": "a begin, a commit"}
WIRE = {"wire_int4": "rows of an INT4", "wire_mixed": "rows of ten types", "wire_parts": "values of 1 MB in parts"}


class Pair(typing.NamedTuple):
    group: str
    what: str
    # This repository's program: a crate's, or one in C that was built; and what follows its name for so many times.
    program: str
    words: typing.Callable
    # The file in C beside it.
    beside: str
    their_words: typing.Callable
    unit: str
    units: int
    # How many of the last words of both must be the same.
    same: int


def walks(room):
    for stream, told in ANSWERS.items():
        file, size = f"{room}/{stream}", stream.rpartition(".")[2]
        for walk, (name, plain, is_same) in WALKS.items():
            of_plain = lambda n, plain=plain, file=file, size=size: [plain, file, size, str(n)]
            if walk in FROM_C:
                yield Pair("C", f"{name}: {told}", "calls",
                           lambda n, walk=walk, file=file, size=size: [walk, file, size, str(n)], "plain.c", of_plain,
                           "byte", os.path.getsize(file), 4 if is_same else 0)
            yield Pair("Rattle", f"{name}: {told}", "bench_calls",
                       lambda n, walk=walk, file=file, size=size: ["walk", walk, file, size, str(n)], "plain.c", of_plain,
                       "byte", os.path.getsize(file), 4 if is_same else 0)


def wire(room):
    for stream, told in WIRE.items():
        file = f"{room}/{stream}"
        for piece in (4088, 1):
            words = lambda n, file=file, piece=piece: [file, str(piece), str(n)]
            pieces = f"{told}, in pieces of {piece:,}"
            for group, program, verb in (("the wire: any answer's tokens", "test_wire", "time"),
                                         ("one pass: a client that hears them", "test_listen", "time")):
                yield Pair(group, pieces, program, lambda n, verb=verb, words=words: [verb, *words(n)], "plain_wire.c", words,
                           "byte", os.path.getsize(file), 3)


def places(room):
    for stream, told in WIRE.items():
        words = lambda n, file=f"{room}/{stream}": [file, str(n)]
        for how, more in (("", []), (", a call a row", ["row"])):
            yield Pair("where values stand, from C, by `libtds_c.a` (`bench/places.c`)", told + how, "places",
                       lambda n, words=words, more=more: [*words(n), *more], "plain_places.c", words, "byte",
                       os.path.getsize(f"{room}/{stream}"), 4)
        walked = lambda n, words=words: [*words(n), "4088"]
        yield Pair("where values stand of tokens that a client hears, from C (`bench/places.c`)", f"{told}, in pieces of 4,088", "places",
                   walked, "plain_walked.c", walked, "byte", os.path.getsize(f"{room}/{stream}"), 4)


def judge(room):
    for stream in ("rows1.4096", "rows8.4096"):
        file = f"{room}/{stream}"
        yield Pair("a judge of captures", f"beside a walk that judges nothing: {ANSWERS[stream]}", "test_judge",
                   lambda n, file=file: ["time", file, "4096", str(n)], "plain_wire.c",
                   lambda n, file=file: [file, "4096", str(n), "packets"], "byte", os.path.getsize(file), 0)


def servers(room):
    for stream, told in REQUESTS.items():
        file = f"{room}/{stream}.512"
        with open(file, "rb") as it:
            data = it.read()
        # All requests of a stream are of one length.
        count = len(data) // int.from_bytes(data[2:4], "big")
        words = lambda n, file=file: ["serve", file, "512", str(n)]
        yield Pair("a server's step with the batch language", told, "bench_calls", lambda n, words=words: ["walk", *words(n)],
                   "plain_server.c", words, "request", count, 4)


def service(_room):
    # A time is 100 exchanges.
    times = lambda n: [str(100 * n)]
    what = "a lease, a request and an answer of a packet each, the return"
    yield Pair("a service", what, "test_listen", lambda n: ["exchange", *times(n)], "plain_service.c", times, "request", 100, 2)
    yield Pair("a service from C, by `libtds_c.a` (`bench/exchange.c`)", what, "exchange", times, "plain_service.c", times,
               "request", 100, 2)


def client(_room):
    times = lambda n: [str(100 * n)]
    what = "from start to idle: a reset asked for, a request and its answer of a packet each"
    yield Pair("a client", what, "test_listen", lambda n: ["ask", *times(n)], "plain_client.c", times, "request", 100, 2)
    yield Pair("a client from C, by `libtds_c.a` (`bench/client.c`)", what, "client", times, "plain_client.c", times, "request", 100, 2)


def all_of(room):
    for group in (walks, wire, places, judge, servers, client, service):
        yield from group(room)
