#!/usr/bin/env python3
"""Runs vectors of a client's behaviour against a client, and prints how many of them it fails.

    run_vectors.py FILE MODULE.py        a module of Python with a class Client, as mouktelf_client.py has it
    run_vectors.py FILE PROGRAM WORD..   a program in any language, as client.c is

A program is the client of one connection after another. A line for each call comes on its standard input, and it answers
a line `told TOKEN` for each token that its caller is told, and behind them `did ANSWER OUT STAGE DESCRIPTOR MARK`: what the
call answers, the bytes that go out, and what the client is then; `-` where there is none. The calls are:

    new SIZE | mark_reset full|keep | batch HEX | begin LEVEL | commit [LEVEL] | rollback [LEVEL] | send | cancel | came HEX

HEX of a batch is its text as UTF-16, the low byte first. schema.json says what stands in FILE.
"""

import importlib.util
import json
import subprocess
import sys


class Program:
    """The client of a program, with the calls that a client of Python has."""

    def __init__(self, child, size):
        self.child = child
        self.call("new", size)

    def __getattr__(self, name):
        return lambda *words: self.call(name, *words)

    def state(self):
        return self.now

    def call(self, name, *words):
        spelled = [it.hex() if isinstance(it, bytes) else it.encode("utf-16-le").hex() if name == "batch" else str(it)
                   for it in words]
        self.child.stdin.write(" ".join([name, *spelled]) + "\n")
        self.child.stdin.flush()
        told = []
        while not (line := self.child.stdout.readline()).startswith("did "):
            if not line.startswith("told "):
                raise EOFError(f"the program answers {line!r}")
            told.append(line[5:-1])
        answer, out, stage, descriptor, mark = line.split()[1:]
        self.now = {"stage": stage, "descriptor": int(descriptor), "mark": mark}
        return told if name == "came" else (answer, bytes.fromhex(out.strip("-")))


def step(client, it):
    """What a call answers, in the words of a vector."""
    call = it["call"]
    if call in ("send", "cancel"):
        answer, out = getattr(client, call)()
        return {"answer": answer, "out": out.hex()}
    if call == "came":
        return {"told": client.came(bytes.fromhex(it["in"]))}
    getattr(client, call)(*[it[key] for key in ("reset", "text", "isolation") if key in it])
    return {}


def difference(new_client, vector):
    """The first call that is answered otherwise than the vector says, and both answers."""
    client = new_client(vector["packet_size"])
    for place, it in enumerate(vector["steps"], 1):
        found = {**step(client, it), "state": client.state()}
        wanted = {key: it[key] for key in found}
        if found != wanted:
            return f"{vector['name']}: call {place}, {it['call']}: {found} and not {wanted}"
    return None


def client_of(words):
    """What makes a client, by the words of the command line."""
    if words[0].endswith(".py"):
        spec = importlib.util.spec_from_file_location("client", words[0])
        module = importlib.util.module_from_spec(spec)
        spec.loader.exec_module(module)
        return module.Client
    child = subprocess.Popen(words, stdin=subprocess.PIPE, stdout=subprocess.PIPE, text=True, encoding="ascii")
    return lambda size: Program(child, size)


def main(path, *words):
    with open(path, encoding="utf-8") as it:
        vectors = json.load(it)["vectors"]
    new_client = client_of(words)
    wrong = [it for it in (difference(new_client, vector) for vector in vectors) if it]
    print("".join(f"{it}\n" for it in wrong[:20]) + f"{len(vectors)} vectors, {len(wrong)} wrong")
    return 1 if wrong or not vectors else 0


if __name__ == "__main__":
    sys.exit(main(*sys.argv[1:]))
