#!/usr/bin/env python3
"""Writes the TCP payloads of captures as tdswatch reads them: capture_lines.py [--port N] FILE..

A line `STREAM DIRECTION TIME HEX` for each piece, in the order in which they were seen; TIME is microseconds since
the file's first packet. tshark reads the files (pcap, pcapng). Bytes that were sent again are left out, and those that came out of order wait for
what they follow. A stream of which a mebibyte waits is given up, and so is one that ends while bytes wait, or whose client's end tells
of more bytes than came: a line on standard error says which, nothing says that it was closed, and the exit status is 1. So it is where no packet of a file is of that port: the
line says which ports were seen."""

import argparse
import collections
import os
import shutil
import subprocess
import sys

FIELDS = ["tcp.stream", "tcp.dstport", "frame.time_relative", "tcp.seq", "tcp.ack", "tcp.flags.syn", "tcp.flags.fin",
          "tcp.flags.reset", "tcp.payload"]
# What tshark need not look into.
UNREAD = ["tds", "tls", "data"]
MOST_WAITING = 1 << 20
# So many of the ports that were seen are told.
MOST_PORTS = 8


class Side:
    """One direction of a stream: what comes next, and what waits for it."""

    def __init__(self, start=None):
        self.next = start
        self.waiting = {}

    def is_short(self):
        return sum(map(len, self.waiting.values())) > MOST_WAITING

    def ready(self, seq, payload):
        """The bytes that are whole now, with these."""
        if self.next is None:
            self.next = seq
        self.waiting[seq] = max(payload, self.waiting.get(seq, b""), key=len)
        whole = b""
        for at in sorted(self.waiting):
            if at > self.next:
                break
            fresh = self.waiting.pop(at)[self.next - at:]
            self.next += len(fresh)
            whole += fresh
        return whole


class Capture:
    """The streams of one file."""

    def __init__(self, path, port, first):
        self.path, self.port, self.first, self.last = path, port, first, first
        self.sides, self.closed, self.is_whole = {}, set(), True

    def rows(self):
        """The packets that have bytes, or begin or end a stream."""
        marks = " || ".join(f"tcp.flags.{it} == 1" for it in ("syn", "fin", "reset"))
        wanted = f"tcp.port == {self.port} && (tcp.len > 0 || {marks})"
        words = ["tshark", "-n", "-r", self.path, "-Y", wanted, "-T", "fields", "-E", "separator=/t"]
        words += [it for name in UNREAD for it in ("--disable-protocol", name)]
        words += [it for field in FIELDS for it in ("-e", field)]
        with subprocess.Popen(words, stdout=subprocess.PIPE, text=True) as run:
            for line in run.stdout:
                yield line.rstrip("\n").split("\t")
        if run.returncode:
            print(f"capture_lines: tshark couldn't read {self.path} to its end", file=sys.stderr)
            self.is_whole = False

    def ports(self):
        """The ports of the file's packets that have bytes, those with most packets first."""
        words = ["tshark", "-n", "-r", self.path, "-Y", "tcp.len > 0", "-T", "fields", "-e", "tcp.srcport", "-e", "tcp.dstport"]
        ran = subprocess.run(words, capture_output=True, text=True, check=False)
        return collections.Counter(ran.stdout.split()).most_common(MOST_PORTS)

    def lacks(self, number, seq, ack):
        """Whether the client's last packet, by its numbers, tells of bytes that didn't come: its own, or those that it had (an end counts as one)."""
        ours, theirs = (self.sides.get((number, is_to_server)) for is_to_server in (True, False))
        return bool(ours and ours.next is not None and ours.next < seq or theirs and theirs.next is not None and theirs.next < ack - 1)

    def close(self, number, time, is_short):
        """A stream ends."""
        self.closed.add(number)
        sides = [self.sides.pop((number, is_to_server), None) for is_to_server in (True, False)]
        if is_short or any(side and side.waiting for side in sides):
            self.give_up(number)
        else:
            print(number, "close", time)

    def give_up(self, number):
        print(f"capture_lines: {self.path}: bytes of stream {number} are missing", file=sys.stderr)
        self.is_whole = False

    def take(self, number, time, is_to_server, seq, payload):
        """Bytes of a stream came."""
        side = self.sides.setdefault((number, is_to_server), Side())
        whole = side.ready(seq, payload)
        if whole:
            print(number, ">" if is_to_server else "<", time, whole.hex())
        if side.is_short():
            self.closed.add(number)
            self.give_up(number)

    def write(self):
        """Writes the lines; streams are numbered from `first` on."""
        is_empty = True
        for stream, target, time, seq, ack, syn, fin, reset, payload in self.rows():
            is_empty = False
            number = self.first + int(stream)
            self.last = max(self.last, number + 1)
            if number in self.closed:
                continue
            is_to_server = int(target) == self.port
            if is_set(syn):
                self.sides[number, is_to_server] = Side(int(seq) + 1)
            if payload:
                data = bytes.fromhex(payload.replace(":", ""))
                self.take(number, microseconds(time), is_to_server, int(seq), data)
            if number not in self.closed and (is_set(reset) or is_set(fin) and is_to_server):
                is_short = is_set(fin) and is_to_server and self.lacks(number, int(seq), int(ack or 0))
                self.close(number, microseconds(time), is_short)
        for number in sorted({number for (number, _), side in self.sides.items() if side.waiting} - self.closed):
            self.give_up(number)
        if is_empty and self.is_whole:
            seen = ", ".join(f"{port} ({count} packets)" for port, count in self.ports())
            print(f"capture_lines: {self.path}: no packet of port {self.port}; "
                  + (f"seen: {seen}; --port N takes another one" if seen else "no TCP with bytes in it"), file=sys.stderr)
            self.is_whole = False


def write_all(paths, port):
    """Writes the lines of all captures. Whether each was read to its end."""
    first, is_whole = 0, True
    for path in paths:
        capture = Capture(path, port, first)
        capture.write()
        first, is_whole = capture.last, is_whole and capture.is_whole
    sys.stdout.flush()
    return is_whole


def microseconds(time):
    whole, _, part = time.partition(".")
    return int(whole) * 1_000_000 + int((part + "000000")[:6])


def is_set(flag):
    return flag.lower() in ("1", "true")


def main():
    words = argparse.ArgumentParser(description=__doc__.partition("\n")[0])
    words.add_argument("--port", type=int, default=1433)
    words.add_argument("files", nargs="+")
    given = words.parse_args()
    if shutil.which("tshark") is None:
        sys.exit("capture_lines: there is no tshark here; docs/JUDGING.md says how to make the lines without it")
    try:
        return 0 if write_all(given.files, given.port) else 1
    except BrokenPipeError:
        # Who reads the lines has ended, and says why.
        os.dup2(os.open(os.devnull, os.O_WRONLY), sys.stdout.fileno())
        return 0


if __name__ == "__main__":
    sys.exit(main())
