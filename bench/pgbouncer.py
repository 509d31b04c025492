"""pgbouncer before PostgreSQL, for who asks beside: a pool of another protocol, measured in the same run as tdsrelay
(bench/relay latency and share). On Debian: pgbouncer and postgresql. Neither runs as root."""
import asyncio
import glob
import os
import shutil
import socket
import struct
import subprocess
import time

from peers import exactly

USER = "postgres"
QUERY = b"select 7, 7, 7"


def programs():
    """initdb, postgres and pgbouncer, or none where one isn't installed."""
    places = sorted(glob.glob("/usr/lib/postgresql/*/bin"))
    pgbouncer = shutil.which("pgbouncer")
    return (f"{places[-1]}/initdb", f"{places[-1]}/postgres", pgbouncer) if places and pgbouncer else None


def free_port():
    with socket.socket() as it:
        it.bind(("127.0.0.1", 0))
        return it.getsockname()[1]


def ask(text):
    return b"Q" + struct.pack(">I", len(text) + 5) + text + b"\0"


def until_ready(link):
    """How many bytes come up to a ReadyForQuery."""
    size = 0
    while True:
        kind, length = struct.unpack(">cI", exactly(link, 5))
        exactly(link, length - 4)
        size += length + 1
        if kind == b"E":
            raise OSError("an error was answered")
        if kind == b"Z":
            return size


def login():
    words = f"user\0{USER}\0database\0{USER}\0\0".encode()
    return struct.pack(">II", len(words) + 8, 196608) + words


def logged_in(port):
    link = socket.create_connection(("127.0.0.1", port))
    link.setsockopt(socket.IPPROTO_TCP, socket.TCP_NODELAY, 1)
    link.sendall(login())
    until_ready(link)
    return link


def size_of(link):
    link.sendall(ask(QUERY))
    return until_ready(link)


class Application:
    """One of many that stay: what it is to ask is said as to tdsrelay's."""

    SAYS = {"begin": b"begin", "rollback": b"rollback"}

    def __init__(self, port, asks=False):
        self.port = port

    async def connect(self):
        self.reader, self.writer = await asyncio.open_connection("127.0.0.1", self.port)
        self.writer.write(login())
        await self.until_ready()
        return self

    async def ask(self, text):
        self.writer.write(ask(self.SAYS.get(text, QUERY)))
        await self.until_ready()

    async def until_ready(self):
        kind = b""
        while kind != b"Z":
            kind, length = struct.unpack(">cI", await self.reader.readexactly(5))
            await self.reader.readexactly(length - 4)
            if kind == b"E":
                raise OSError("an error was answered")


class Pgbouncer:
    """A PostgreSQL of its own in this room, and pgbouncer before it, so many connections at the most, each lent for a
    session or for a transaction."""

    def __init__(self, room, paths, mode="session", most=16):
        self.children = []
        initdb, postgres, pgbouncer = paths
        place = f"{room}/pg"
        os.makedirs(place)
        for it in (room, place):
            shutil.chown(it, USER)
        self.run([initdb, "-D", f"{place}/data", "-A", "trust", "-U", USER], subprocess.run)
        self.direct, self.port = free_port(), free_port()
        self.start([postgres, "-D", f"{place}/data", "-p", str(self.direct), "-k", place], self.direct)
        with open(f"{place}/users", "w", encoding="ascii") as it:
            it.write(f'"{USER}" ""\n')
        with open(f"{place}/pgbouncer.ini", "w", encoding="ascii") as it:
            it.write(f"[databases]\n{USER} = host=127.0.0.1 port={self.direct} dbname={USER}\n[pgbouncer]\n"
                     f"listen_addr = 127.0.0.1\nlisten_port = {self.port}\nauth_type = trust\nauth_file = {place}/users\n"
                     f"pool_mode = {mode}\ndefault_pool_size = {most}\nmax_client_conn = 1000\nunix_socket_dir =\n")
        self.start([pgbouncer, f"{place}/pgbouncer.ini"], self.port)

    def run(self, words, call):
        return call(["runuser", "-u", USER, "--", *words], stdout=subprocess.DEVNULL, stderr=subprocess.DEVNULL)

    def start(self, words, port):
        self.children.append(self.run(words, subprocess.Popen))
        for _ in range(100):
            time.sleep(0.1)
            try:
                return logged_in(port).close()
            except OSError:
                pass
        raise OSError(f"{words[0]} lets nobody in")

    def end(self):
        for child in reversed(self.children):
            subprocess.run(["pkill", "-INT", "-P", str(child.pid)])
            child.wait()
