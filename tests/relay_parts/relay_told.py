"""A tdsrelay that tells what it does over HTTP, and applications before it, for tests/relay_limits."""

import json
import re
import resource
import socket
import struct
import subprocess

from peers import PATIENCE, batch, connect, login, message, packet

LINE = re.compile(rb"(relaying|telling at) (\S+)")


class Relay:
    """A tdsrelay on free ports with these words, whose standard input is a pipe that ends it."""

    def __init__(self, program, server, *words, others=(), listen="127.0.0.1", at="127.0.0.1",
                 files=None):
        servers = [f"{at}:{port}" for port in (server, *others)]
        stats = [] if "--stats" in words else ["--stats", "127.0.0.1:0"]
        self.child = subprocess.Popen(
            [program, f"{listen}:0", *servers, *stats, "--until-input-ends", *words],
            stdin=subprocess.PIPE, stderr=subprocess.PIPE,
            preexec_fn=files and (lambda: resource.setrlimit(resource.RLIMIT_NOFILE, (files, files))))
        self.stats = self.port = None
        while self.port is None:
            line = self.child.stderr.readline()
            if not line:
                raise OSError("the relay doesn't listen")
            found = LINE.match(line)
            port = int(found[2].rpartition(b":")[2])
            if found[1] == b"relaying":
                self.port = port
            else:
                self.stats = port

    def ask(self, path, method="GET", host="127.0.0.1", fields=None):
        """The status and the body of an answer over HTTP: as who means this relay asks, or with these fields."""
        with socket.create_connection((host, self.stats), PATIENCE) as link:
            fields = [f"Host: {host}:{self.stats}", "X-Tdsrelay: 1"] if fields is None else fields
            link.sendall("\r\n".join([f"{method} {path} HTTP/1.1", *fields, "", ""]).encode())
            got = b""
            while more := link.recv(65536):
                got += more
        head, _, body = got.partition(b"\r\n\r\n")
        length = int(re.search(rb"Content-Length: (\d+)", head)[1])
        if length != len(body):
            raise OSError(f"{length} bytes were said, {len(body)} came")
        return int(head.split()[1]), body

    def json(self):
        return json.loads(self.ask("/json")[1])

    def end(self):
        """Ends its standard input, and gives the status and the last line."""
        self.child.stdin.close()
        said = self.child.stderr.read()
        return self.child.wait(PATIENCE), said

    def lines(self):
        """Ends it, and gives the lines of the log, without the time in front of each and whose it is behind."""
        return [bare(it) for it in self.end()[1].decode().splitlines()]

    def __enter__(self):
        return self

    def __exit__(self, *_):
        if self.child.poll() is None:
            self.child.kill()
        self.child.wait()
        self.child.stdin.close()
        self.child.stderr.close()


def bare(line):
    """A line of the log without the time in front of it, and without whose it is behind it."""
    return re.sub(r" \((user|database|from) .*\)$", "", re.sub(r"^\d{4}-\d\d-\d\dT\d\d:\d\d:\d\d\.\d{3}Z ", "", line))


def login_of(host="", program="", user="", database=""):
    """A login of who says that he is this."""
    names = [it.encode("utf-16le") for it in (host, user, "", program, database)]
    data, at = bytearray(login(more=sum(map(len, names)))), 8 + 94
    for field, name in zip((36, 40, 44, 48, 68), names):
        struct.pack_into("<HH", data, 8 + field, at - 8, len(name) // 2)
        data[at:at + len(name)] = name
        at += len(name)
    return bytes(data)


def log_in(relay, *names, **named):
    """An application that is logged in, which says that it is this."""
    link = connect(relay.port)
    link.sendall(login_of(*names, **named))
    message(link)
    return link


def rows(link, number):
    """Asks for a row, and gives whether it came."""
    link.sendall(batch(f"rows {number} 1"))
    return struct.pack("<Bi", 0xD1, number) in message(link)


def error_packet(number, sentence, is_old=False):
    """A packet with ERROR of state 1 and class 20, from `tdsrelay`, in no procedure, in line 1 (MS-TDS 2.2.7.10), and
    DONE with DONE_ERROR (2.2.7.6). Before TDS 7.2 a line has two bytes there, and a count of rows four."""
    name = "tdsrelay"
    body = struct.pack("<IBBH", number, 1, 20, len(sentence)) + sentence.encode("utf-16le")
    body += bytes([len(name)]) + name.encode("utf-16le") + b"\0" + struct.pack("<H" if is_old else "<I", 1)
    done = struct.pack("<BHHI" if is_old else "<BHHQ", 0xFD, 2, 0, 0)
    return packet(4, b"\xaa" + struct.pack("<H", len(body)) + body + done)


def error_of(link):
    """The number of the error that ends a connection, None where it just ends."""
    try:
        data = message(link)
    except OSError:
        return None
    number = error_in(data)
    return number if link.recv(10) == b"" else ("open", number)


def error_in(data):
    """The number of the first error in a message's data (MS-TDS 2.2.7.10), None where there is none."""
    at = data.find(b"\xaa")
    return struct.unpack_from("<I", data, at + 3)[0] if at >= 0 else None


def closes(link):
    """Whether the other end closes within a minute."""
    link.settimeout(PATIENCE)
    try:
        while link.recv(4096):
            pass
        return True
    except socket.timeout:
        return False
    except OSError:
        return True
