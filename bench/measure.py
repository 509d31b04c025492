"""What a program takes for one time of a thing: instructions, as valgrind's callgrind counts them, and the processor's time.

A program is told how often it does the thing. Of two runs that do it differently often the difference is taken, so
what it does once (it starts, and reads its file) counts for nothing. Neither figure is of the wall's clock, which on a busy
machine counts the work of others too.
"""
import os
import re
import subprocess
import sys

# So many instructions a run has at least of which the time is taken.
ENOUGH = 200_000_000
counted = {}


def instructions(command):
    """Instructions of one time. `command` gives the words for so many times. What was counted isn't counted again."""
    def of(times):
        words = ["valgrind", "--tool=callgrind", "--callgrind-out-file=/dev/null", *command(times)]
        run = subprocess.run(words, stdin=subprocess.DEVNULL, stdout=subprocess.DEVNULL, stderr=subprocess.PIPE, text=True)
        if run.returncode:
            sys.exit(f"bench/run: {' '.join(words)}: {run.stderr[-300:]}")
        return int(re.search(r"Collected : (\d+)", run.stderr)[1])
    name = tuple(command(1))
    if name not in counted:
        counted[name] = of(2) - of(1)
    return counted[name]


def seconds(words):
    """The processor's time of a run, in the program and in the system for it."""
    nowhere = [(os.POSIX_SPAWN_OPEN, 1, "/dev/null", os.O_WRONLY, 0)]
    pid = os.posix_spawnp(words[0], words, os.environ, file_actions=nowhere)
    _, status, usage = os.wait4(pid, 0)
    if status:
        sys.exit(f"bench/run: {' '.join(words)}: it failed")
    return usage.ru_utime + usage.ru_stime


def times_for(count):
    """How often a thing of so many instructions is done where its time is taken."""
    return 1 + ENOUGH // max(1, count)


def nanoseconds(commands, counts, turns):
    """The nanoseconds of one time, by the fastest of some turns, in which the programs take turns."""
    least = {}
    for _ in range(turns):
        for name, command in commands.items():
            times = times_for(counts[name])
            for it in (0, times):
                took = seconds(command(it))
                least[name, bool(it)] = min(took, least.get((name, bool(it)), took))
    return {name: 1e9 * (least[name, True] - least[name, False]) / times_for(counts[name]) for name in commands}
