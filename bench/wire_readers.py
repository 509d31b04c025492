"""Measures other readers over the answers of bench/wire_streams.py: FreeTDS's CT-Library and go-mssqldb. A server in this
process logs them in and gives each answer in packets of 4,096 bytes, as often as it is asked; a client counts its own time
of the processor, behind a first answer. Beside them the walker, which reads a file in pieces of 4,088 bytes: it has no
socket, and tells no value.
"""
import os
import socket
import subprocess
import sys
import threading

import freetds
import measure
import pairs

HERE = os.path.dirname(os.path.abspath(__file__))


class Answer:
    def __init__(self, data):
        self.data = data


def server_of(answers):
    """A server that gives these answers, by their numbers. Its port."""
    listener = socket.create_server(("127.0.0.1", 0))

    def accept():
        while True:
            link, _ = listener.accept()
            threading.Thread(target=freetds.serve, args=(link, answers, [4088] * len(answers)), daemon=True).start()

    threading.Thread(target=accept, daemon=True).start()
    return listener.getsockname()[1]


def freetds_of(room, port):
    """FreeTDS's client, or nothing where it can't be built."""
    program = f"{room}/wire_freetds"
    if subprocess.run(["cc", "-O2", "-o", program, f"{HERE}/wire_freetds.c", "-lct"], stderr=subprocess.DEVNULL).returncode:
        return None
    with open(f"{room}/conf", "w") as conf:
        conf.write(freetds.CONF.format(port=port))
    return [program, "peer"], dict(os.environ, FREETDSCONF=f"{room}/conf", LC_ALL="C.UTF-8")


def mssqldb_of(room, port):
    """go-mssqldb's client, or nothing where it can't be built."""
    program = f"{room}/wire_mssqldb"
    go = dict(os.environ, GO111MODULE="off", GOPATH="/usr/share/gocode", GOCACHE=f"{room}/cache", GOFLAGS="")
    try:
        subprocess.run(["go", "build", "-o", program, f"{HERE}/wire_mssqldb.go"], check=True, env=go, stderr=subprocess.DEVNULL)
    except (OSError, subprocess.CalledProcessError):
        return None
    return [program, str(port)], dict(os.environ, GOMAXPROCS="1")


READERS = {"FreeTDS's CT-Library": freetds_of, "go-mssqldb": mssqldb_of}


def timed(command, env, times):
    """The nanoseconds of an answer."""
    run = subprocess.run([*command, str(times)], env=env, stdout=subprocess.PIPE, text=True, check=True)
    return [int(word) for word in run.stdout.split() if word.isdigit()][0] / times


def ratios(room, walker, turns, left_out):
    """The table's lines: each reader beside the walker."""
    names = [it for it in sorted(os.listdir(room)) if it.startswith("wire_") and it in ("wire_int4", "wire_mixed", "wire_parts")]
    answers = [Answer(open(f"{room}/{name}", "rb").read()) for name in names]
    port = server_of(answers)
    found = {name: make(room, port) for name, make in READERS.items()}
    left_out += [f"{name} is left out: its client can't be built" for name, it in found.items() if it is None]
    for which, name in enumerate(names):
        command = lambda n: [walker, "time", f"{room}/{name}", "4088", str(n)]
        count = measure.instructions(command)
        ours = measure.nanoseconds({name: command}, {name: count}, turns)[name]
        for reader, it in found.items():
            if it:
                theirs = min(timed([*it[0], str(which)], it[1], 20) for _ in range(turns))
                yield f"| the wire: any answer's tokens: {pairs.WIRE[name]} | {reader} | byte | | | | {theirs / ours:.2f} |"
