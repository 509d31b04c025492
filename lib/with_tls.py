#!/usr/bin/env python3
"""Runs a program of the top behind tdstls, which encrypts: with_tls.py PROGRAM CERT KEY ADDRESS [WORD..].

tdstls listens at ADDRESS with this certificate and key, and everything that goes there must be encrypted.
The program listens in clear at a port of 127.0.0.1 that the system finds, with all other words. Both
write to standard error; a line of tdstls begins with `tls: `, and those of single connections come with
--log alone. SIGINT, SIGTERM and SIGHUP end both in order, with the program's status; where one of the two
ends by itself the other is ended too.

with_tls.py --build prints the path of tdstls, which is built where it is older than its sources.
"""

import ctypes
import glob
import ipaddress
import os
import queue
import shutil
import signal
import socket
import subprocess
import sys
import threading

TOP = os.path.dirname(os.path.dirname(os.path.realpath(__file__)))
SOURCES = f"{TOP}/tls"
PACKAGE = "golang-go"
NOT_HERE = f"there is neither tls/out/tdstls nor Go here to build it; on Debian: apt-get install {PACKAGE}"
# Go alone is enough then, without a C compiler.
WITHOUT_C = {"CGO_ENABLED": "0"}
ON_PARENTS_DEATH = 1  # PR_SET_PDEATHSIG
DRAIN = "2s"


class NoTdstls(Exception):
    """tdstls can't be had."""


def tdstls():
    """The path of tdstls; it is built where Go is here and it is older than its sources."""
    target = f"{SOURCES}/out/tdstls"
    sources = [f"{SOURCES}/go.mod", *glob.glob(f"{SOURCES}/**/*.go", recursive=True)]
    if os.access(target, os.X_OK) and all(os.path.getmtime(it) <= os.path.getmtime(target) for it in sources):
        return target
    if not shutil.which("go"):
        if os.access(target, os.X_OK):
            return target
        raise NoTdstls(NOT_HERE)
    os.makedirs(f"{SOURCES}/out", exist_ok=True)
    made = f"{target}.{os.getpid()}"
    done = subprocess.run(["go", "build", "-o", made, "."], cwd=SOURCES, env={**os.environ, **WITHOUT_C},
                          stdin=subprocess.DEVNULL, stdout=subprocess.PIPE, stderr=subprocess.STDOUT, text=True,
                          errors="replace", check=False)
    if done.returncode:
        raise NoTdstls(f"tdstls can't be built: {done.stdout.strip()}")
    os.utime(made)
    os.replace(made, target)
    return target


def is_own(address):
    """Whether ADDRESS is this machine's alone; where it is no address tdstls says so."""
    host, _, port = address.rpartition(":")
    try:
        found = socket.getaddrinfo(host.strip("[]"), port or None, type=socket.SOCK_STREAM)
    except (OSError, UnicodeError):
        return True
    return all(ipaddress.ip_address(it[4][0].partition("%")[0]).is_loopback for it in found)


def start(words, **more):
    """Starts a child that ends with this script, and that a terminal's Ctrl-C doesn't reach."""
    of_system = ctypes.CDLL(None)
    return subprocess.Popen(words, stderr=subprocess.PIPE, text=True, errors="replace", start_new_session=True,
                            preexec_fn=lambda: of_system.prctl(ON_PARENTS_DEATH, signal.SIGTERM), **more)


class Pair:
    """The program and tdstls, and who of them ended."""

    def __init__(self, path, program, certificate, key, address, words):
        self.path, self.name, self.is_logged = path, os.path.basename(program), "--log" in words
        self.certificate, self.key, self.address = certificate, key, address
        self.lock = threading.Lock()
        # a queue, not an event: a signal's handler may put while this thread is inside its own wait
        self.something = queue.SimpleQueue()
        self.asked, self.tls = False, None
        for number in (signal.SIGINT, signal.SIGTERM, signal.SIGHUP):
            signal.signal(number, self.end)
        more = [] if "--until-input-ends" in words else ["--until-input-ends"]
        self.program = start([program, "127.0.0.1:0", *words, *more], stdin=subprocess.PIPE)
        self.follow(self.program, self.of_program)
        if not more:
            threading.Thread(target=self.until_input_ends, daemon=True).start()

    def say(self, line):
        with self.lock:
            print(line, file=sys.stderr, flush=True)

    def follow(self, child, tell):
        """Tells a child's lines, and that it ended."""
        def lines():
            for line in child.stderr:
                tell(line.rstrip("\n"))
            child.wait()
            self.something.put(True)
        thread = threading.Thread(target=lines)
        thread.start()
        child.told = thread

    def of_program(self, line):
        front = "serving on "
        if self.tls or not line.startswith(front):
            return self.say(line)
        self.say(f"tls: {self.name} is in clear on {line[len(front):]}")
        self.tls = start([self.path, "server", "-listen", self.address, "-forward", line[len(front):], "-cert",
                          self.certificate, "-key", self.key, "-require", "all", "-drain", DRAIN],
                         stdin=subprocess.DEVNULL)
        self.follow(self.tls, self.of_tls)
        return None

    def of_tls(self, line):
        words = line.split()
        if words[2:3] == ["listens"]:
            self.say(f"tls: tdstls is process {self.tls.pid}; at SIGHUP it reads the certificate again")
            return self.say(f"serving on {words[3].removeprefix('at=')}")
        is_of_connection = len(words) > 3 and words[2].isdigit() and words[3] in ("open", "end")
        if self.is_logged or not is_of_connection:
            self.say(f"tls: {line.removeprefix('tdstls: ')}")
        return None

    def until_input_ends(self):
        while os.read(0, 4096):
            pass
        self.end()

    def end(self, *_):
        self.asked = True
        self.something.put(True)

    def run(self):
        """Waits until one ends or an end is asked for, ends both, and gives the status."""
        self.something.get()
        first = self.tls if self.tls and self.tls.poll() is not None and not self.asked else self.program
        self.program.stdin.close()
        status = self.program.wait()
        # its reader may have started tdstls meanwhile
        self.program.told.join()
        if self.tls:
            self.tls.terminate()
            of_tls = self.tls.wait()
            self.tls.told.join()
            status = of_tls or 1 if first is self.tls else status
        return status if status >= 0 else 128 - status


def main(words):
    try:
        path = tdstls()
        if words == ["--build"]:
            print(path)
            return 0
        program, certificate, key, address, *others = words
    except NoTdstls as fault:
        print(f"error: --tls needs tdstls: {fault}", file=sys.stderr)
        return 3
    except ValueError:
        print("error: usage: with_tls.py PROGRAM CERT KEY ADDRESS [WORD..]", file=sys.stderr)
        return 2
    if address.startswith("-"):
        print("error: with --tls ADDRESS is the first word", file=sys.stderr)
        return 2
    if not is_own(address) and "--let-others-in" not in others:
        print(f"error: ADDRESS {address} isn't this machine's own, as 127.0.0.1 is; --let-others-in listens there, if this "
              "machine has the address, and lets everybody in who can reach it", file=sys.stderr)
        return 2
    others = [it for it in others if it != "--let-others-in"]
    return Pair(path, program, certificate, key, address, others).run()


if __name__ == "__main__":
    sys.exit(main(sys.argv[1:]))
