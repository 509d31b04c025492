#!/usr/bin/env python3
"""What is said in a made file of what it was made of: origin.py CRATE .. prints it of these crates' built libraries.

The sum of the sources, src/ of the crate and of those below it; the checksum of the LLVM module that the proved build
compiled; that build's verdict; and the kit."""

import functools
import hashlib
import re
import subprocess
import sys

import headers

TOP = headers.TOP
SOURCES = re.compile(r"\bsources ([0-9a-f]{64}) of (\w+)")


def said(*words):
    return subprocess.run(words, capture_output=True, text=True, check=True, cwd=TOP).stdout.strip()


@functools.lru_cache(None)
def sources_sum(crate):
    """The sum of the sources that a crate is compiled from today."""
    return said("bash", "-c", f"here={TOP!r} name={crate}; . scripts/program.sh; sources_sum")


def module_sum(crate):
    with open(f"{TOP}/crates/{crate}/out/module.bc", "rb") as it:
        return hashlib.sha256(it.read()).hexdigest()


def verdict(crate):
    """What the proved build said at its end, without what it took from earlier runs."""
    with open(f"{TOP}/crates/{crate}/out/library.log", encoding="utf-8") as it:
        line = re.findall(r"(?m)^logic=.*", it.read())[-1]
    return " ".join(re.findall(r"\b(?:logic|functions|sum)=\S+", line))


def kit():
    return said("rt", "version").split("\n")[0]


def lines(*crates):
    found = []
    for crate in crates:
        found += [f"sources {sources_sum(crate)} of {crate}", f"module {module_sum(crate)}: {verdict(crate)}"]
    return found + [f"kit {kit()}"]


def stale(text):
    """The crates whose sources are others now than those that a made file names."""
    return [crate for digest, crate in SOURCES.findall(text) if digest != sources_sum(crate)]


if __name__ == "__main__":
    print("\n".join(lines(*sys.argv[1:])))
