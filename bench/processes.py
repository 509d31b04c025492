"""What a process has taken, as Linux tells it."""

import os

TICK = 1 / os.sysconf("SC_CLK_TCK")


def processor(pid):
    """The processor time that a process has taken, in seconds."""
    with open(f"/proc/{pid}/stat", encoding="ascii") as it:
        words = it.read().rpartition(")")[2].split()
    return (int(words[11]) + int(words[12])) * TICK


def ran(pid):
    """The same in nanoseconds, of its first thread (proc(5), schedstat)."""
    with open(f"/proc/{pid}/schedstat", encoding="ascii") as it:
        return int(it.read().split()[0])


def memory(pid, name="VmRSS"):
    with open(f"/proc/{pid}/status", encoding="ascii") as it:
        return next(int(line.split()[1]) for line in it if line.startswith(name))
