"""Lets programs of database.go take turns, so that what else the machine does is the same for all, and prints of each the least that a
turn took, and how often what the first one takes.

    python3 bench/languages/turns.py PORT NAME=PROGRAM NAME=PROGRAM.."""

import subprocess
import sys

# What is measured, how many turns, and how it is told: of a processor, and by the clock.
MEASURED = (
    ("rows", 15, "a row of ten types {0:.2f} us of a processor ({2:.2f}), {3:,.0f} rows a second ({4:.2f})"),
    ("one", 40, "a query of one row {0:.1f} us of a processor ({2:.2f}), {1:.1f} by the clock ({5:.2f})"),
    ("cancels", 15, "a cancel, to the next query's answer, {1:.0f} us by the clock ({5:.2f})"),
    ("leases", 10, "1,000 goroutines over 10 connections: {3:,.0f} leases a second ({4:.2f})"),
)


def turn(program, what):
    program.stdin.write(what + "\n")
    program.stdin.flush()
    return [*map(float, program.stdout.readline().split())]


def main(port, *named):
    names, paths = zip(*(it.split("=", 1) for it in named))
    programs = [subprocess.Popen([it, port], stdin=subprocess.PIPE, stdout=subprocess.PIPE, text=True) for it in paths]
    told = [[] for _ in names]
    for what, turns, form in MEASURED:
        taken = [[turn(it, what) for it in programs] for _ in range(turns)]
        least = [[min(it) for it in zip(*own)] for own in zip(*taken)]
        first = least[0]
        for into, (processor, clock) in zip(told, least):
            into.append(form.format(processor, clock, processor / first[0], 1e6 / clock, first[1] / clock, clock / first[1]))
    for name, lines, program in zip(names, told, programs):
        print(f"{name}: " + "; ".join(lines))
        program.stdin.close()
        program.wait()


if __name__ == "__main__":
    main(*sys.argv[1:])
