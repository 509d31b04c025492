"""Measures the memory of idle ends and pools: a program makes so many at once, and then twice as many;
what the second run had more, as the system counts its memory at most, is divided by how many. They are
so many that they have more than this process: a child's most begins with its parent's."""
import os
import sys

KINDS = {
    "client": ("a client's end", 400_000),
    "used-client": ("a client's end that had a request answered", 400_000),
    "server": ("a server's end", 400_000),
    "used-server": ("a server's end that answered a request", 400_000),
    "pool": ("a pool of 64 idle connections", 4_000),
}
SIZES = (512, 4096)
HEAD = """| Idle | packets of 512 bytes | packets of 4,096 bytes | a million, 512 | a million, 4,096 |
|---|---|---|---|---|"""


def most(program, *words):
    """The most memory that a run of the program had, in bytes."""
    nowhere = [(os.POSIX_SPAWN_OPEN, 1, "/dev/null", os.O_WRONLY, 0)]
    pid = os.posix_spawn(program, [program, *words], os.environ, file_actions=nowhere)
    _, status, usage = os.wait4(pid, 0)
    if status:
        sys.exit(f"{program} {' '.join(words)}: it failed")
    return 1024 * usage.ru_maxrss


def measure(program):
    """Gives the lines of the table."""
    for kind, (name, count) in KINDS.items():
        each = []
        for size in SIZES:
            once, twice = (most(program, "memory", kind, str(it), str(size)) for it in (count, 2 * count))
            each.append((twice - once) / count)
        yield f"| {name} | " + " | ".join([f"{it:,.0f} bytes" for it in each] + [f"{it / 1000:,.2f} GB" for it in each]) + " |"
