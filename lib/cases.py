"""What the scripts share that run the built programs: which programs, how many cases, and what is wrong."""

import os
import subprocess
import sys
import threading
import traceback

ROOT = os.path.dirname(os.path.dirname(os.path.abspath(__file__)))
TESTS = f"{ROOT}/tests"
DATA = f"{TESTS}/data"
SCHEDULES = f"{ROOT}/schedules"


class Cases:
    """The cases of one program: how many ran, and how many of them were wrong."""

    def __init__(self):
        self.count = 0
        self.wrong = 0
        self.alone = threading.Lock()

    def check(self, what, is_so, told=""):
        """One case. Where it isn't so, a line says what, and others what was told."""
        with self.alone:
            self.count += 1
            if not is_so:
                self.wrong += 1
                lines = "".join(f"  {line}\n" for line in str(told).splitlines())
                print(f"wrong: {what}\n{lines}", end="", flush=True)

    def same(self, what, printed, wanted):
        """One case: what was printed is what is wanted."""
        self.check(what, printed == wanted, difference(printed, wanted))


    def scene(self, part, *words):
        """One scene: where it ends by an error, that is one wrong case, and those behind it run."""
        try:
            part(*words)
        except Exception:  # Whatever it is: it is told.
            self.check(f"{part.__name__} ends", False, traceback.format_exc())


def difference(printed, wanted):
    """The first line in which two texts differ, both ways."""
    if printed == wanted:
        return ""
    lines, others = (it.decode(errors="replace") if isinstance(it, bytes) else str(it)
                     for it in (printed, wanted))
    lines, others = lines.split("\n"), others.split("\n")
    size = max(len(lines), len(others))
    lines += ["(nothing)"] * (size - len(lines))
    others += ["(nothing)"] * (size - len(others))
    for number, pair in enumerate(zip(lines, others), 1):
        if pair[0] != pair[1]:
            return f"line {number}\nis:     {pair[0]}\nwanted: {pair[1]}"
    return "they differ in bytes that are no text"


def least(name):
    """How many cases the script of this name must run at least, by counts.txt."""
    with open(f"{TESTS}/counts.txt", encoding="ascii") as it:
        for line in it:
            front, _, count = line.rpartition(" ")
            if front == name:
                return int(count)
    sys.exit(f"{name}: tests/counts.txt has no number")


def built(name):
    """What `rt ci` built of a program: LLVM's build, and that of Rattle's own compiler where there is one."""
    program = f"{ROOT}/crates/{name}/out/{name}"
    return [program, *[it for it in [program + ".by-rattle"] if os.path.exists(it)]]


def run_all(script, programs, run):
    """Calls run with each program and its cases, prints how many there were, and gives the exit status."""
    is_well = True
    for program in programs:
        if not os.access(program, os.X_OK):
            print(f"{script}: {program} isn't built", file=sys.stderr)
            return 2
        cases = Cases()
        cases.scene(run, program, cases)
        wanted = least(script)
        few = f", and at least {wanted} are wanted" if cases.count < wanted else ""
        print(f"{script}: {os.path.relpath(program, ROOT)}: {cases.count} cases, {cases.wrong} wrong{few}",
              flush=True)
        is_well = is_well and not cases.wrong and not few
    return 0 if is_well else 1


def ran(words, **how):
    """What a command prints on both streams, and its status."""
    done = subprocess.run(words, stdin=subprocess.DEVNULL, capture_output=True, timeout=120, **how)
    return done.stdout, done.stderr, done.returncode


def rows(path):
    """The rows of a table: name, what is given, what is wanted. A row is a line `= NAME`, then what is
    given, whose last line has no end, a line `-`, and what is wanted."""
    found = []
    with open(path, encoding="utf-8", newline="") as it:
        for line in it:
            if line.startswith("= "):
                found.append([line[2:].rstrip("\n"), "", None])
            elif line == "-\n":
                found[-1][1:] = [found[-1][1].removesuffix("\n"), ""]
            else:
                found[-1][1 if found[-1][2] is None else 2] += line
    return found


def schedules():
    """The paths of all schedules, without their ending; a text without its schedule too."""
    found = set()
    for folder, _, names in os.walk(SCHEDULES):
        found |= {f"{folder}/{name.rpartition('.')[0]}" for name in names if name.endswith((".json", ".txt"))}
    return sorted(found)
