"""Measures what clients take of a processor for rows that come over a socket: this repository's from C, FreeTDS, jTDS, and
a loop in plain C. bench/rows_server.c sends each the same rows, in packets of 4,096 bytes.

Each client counts its own time from the answer's first bytes to its last row, on one connection: first once to
warm up (jTDS ten times), then some turns, of which the fastest counts.
"""
import os
import shutil
import subprocess

HERE = os.path.dirname(os.path.realpath(__file__))
JTDS = "/usr/share/java/jtds.jar"
OURS, COLUMNS = "this repository's, from C", {1: "one column", 8: "eight columns"}


def run(*words):
    return subprocess.run(words, check=True, stdout=subprocess.PIPE, text=True).stdout


def built(words):
    """Runs a compiler; gives the first line of what it says where it can't, and None where it can."""
    ran = subprocess.run(words, stdout=subprocess.PIPE, stderr=subprocess.STDOUT, text=True)
    return None if ran.returncode == 0 else (ran.stdout.splitlines() or ["it says nothing"])[0]


class Clients:
    """The clients that this machine has, built in a folder; and what is left out, with the reason."""

    def __init__(self, folder, cc, flags, library, answers):
        self.left_out = []
        run(*cc, *flags, "-o", f"{folder}/rows_server", f"{HERE}/rows_server.c")
        run(*cc, *flags, "-o", f"{folder}/rows_calls", f"{HERE}/rows_calls.c", *library)
        self.server = [f"{folder}/rows_server", answers]
        # of each: its name, its words but for the port, and how many turns warm it up
        self.found = [(name, [f"{folder}/rows_calls", way], 1) for name, way in ((OURS, "tds"), ("`bench/rows_calls.c`", "plain"))]
        self.build_freetds(folder, cc, flags)
        self.build_jtds(folder)

    def build_freetds(self, folder, cc, flags):
        program = f"{folder}/rows_freetds"
        why = built([*cc, *flags, "-D_POSIX_C_SOURCE=200809L", "-o", program, f"{HERE}/rows_freetds.c", "-lsybdb"])
        if why:
            self.left_out.append(f"FreeTDS is left out, its db-lib isn't there (on Debian: freetds-dev): {why}")
        else:
            self.found.append(("FreeTDS", [program], 1))

    def build_jtds(self, folder):
        if not shutil.which("javac") or not os.path.exists(JTDS):
            self.left_out.append(f"jTDS is left out: javac or {JTDS} isn't there (on Debian: libjtds-java, default-jdk-headless)")
            return
        why = built(["javac", "-cp", JTDS, "-d", folder, f"{HERE}/RowsJtds.java"])
        if why:
            self.left_out.append(f"jTDS is left out: {why}")
        else:
            self.found.append(("jTDS", ["java", "-cp", f"{JTDS}:{folder}", "RowsJtds"], 10))

    def measure(self, turns):
        """Gives, for rows of one and of eight columns, the nanoseconds of a row by each client, in 15 turns at least: a
        client whose code is compiled as it runs is slower at first."""
        turns = max(15, turns)
        server = subprocess.Popen(self.server, stdout=subprocess.PIPE, text=True)
        try:
            port = server.stdout.readline().strip()
            for columns in COLUMNS:
                sums, taken = set(), {}
                for name, words, warm in self.found:
                    lines = run(*words, port, str(columns), str(warm + turns)).splitlines()
                    version = next((it for it in lines if not it[0].isdigit()), name)
                    times = [[int(it) for it in line.split()] for line in lines if line[0].isdigit()][-turns:]
                    sums.update((it[2], it[3]) for it in times)
                    if len(sums) != 1:
                        raise SystemExit(f"{name} reads other values than the clients before it: {sums}")
                    taken[version] = min(it[1] for it in times) / times[0][2]
                yield columns, taken
        finally:
            server.terminate()
            server.wait()


def ratios(found, turns, left_out):
    """The table's lines: each client beside this repository's."""
    left_out += found.left_out
    for columns, taken in found.measure(turns):
        ours = taken.pop(OURS)
        for name, theirs in taken.items():
            yield (f"| a client over a socket, from C: rows of {COLUMNS[columns]}, values summed | {name} | row | | | | {theirs / ours:.2f} |")
