"""The DB-API module with TLS, by python-tds's own (pyOpenSSL), before the server of tds_server.py behind Python's ssl: its handshake stands
in packets of PRELOGIN (MS-TDS 2.2.6.5), and all else is encrypted.

    python3 test_tds_tls.py     wants python-tds, pyOpenSSL and the program openssl, and says so where one isn't here."""

import asyncio
import shutil
import ssl
import struct
import subprocess
import sys
import tempfile
import threading

import tds_server
from test_tds import firsts, raises
from pytds import tls
from mouktelf import tds
from mouktelf.tds import aio

if not tls.OPENSSL_AVAILABLE or not shutil.which("openssl"):
    print("test_tds_tls: left out: pyOpenSSL or openssl isn't here")
    sys.exit(0)

PRELOGIN, ON = 18, 1


class Encrypted:
    """A link under TLS, for a peer that waits by time limits."""

    def __init__(self, link, context):
        self.link, self.came, self.out = link, ssl.MemoryBIO(), ssl.MemoryBIO()
        self.tls = context.wrap_bio(self.came, self.out, server_side=True)
        self.settimeout = link.settimeout

    def recv(self, size):
        while True:
            try:
                return self.tls.read(size)
            except ssl.SSLWantReadError:
                piece = self.link.recv(size)
                if not piece:
                    return b""
                self.came.write(piece)

    def sendall(self, data):
        self.tls.write(data)
        self.link.sendall(self.out.read())


class Peer(tds_server.Peer):
    """Encrypts from its PRELOGIN on."""

    context = None

    def serve(self):
        self.message()
        self.link.sendall(tds_server.packet(tds_server.PRELOGIN_ANSWER[:-1] + bytes([ON])))
        encrypted = Encrypted(self.link, self.context)
        while True:
            try:
                encrypted.tls.do_handshake()
                break
            except ssl.SSLWantReadError:
                self.shake(encrypted)
                encrypted.came.write(self.message()[2])
        self.shake(encrypted)
        self.link = encrypted
        self.message()
        self.link.sendall(tds_server.packet(tds_server.login_answer()))
        while True:
            self.request(*self.message())

    def shake(self, encrypted):
        data = encrypted.out.read()
        if data:
            self.link.sendall(struct.pack(">BBHHBB", PRELOGIN, 1, 8 + len(data), 0, 1, 0) + data)


def by_threads(how):
    with tds.connect("localhost", **how) as connection:
        cursor = connection.cursor()
        assert firsts(cursor.execute("rows 7 2").fetchall()) == [7, 8]
        # More than python-tds's TLS takes at once.
        cursor.execute(f"set a 5;{' ' * 200_000}rows 1 1;wait")
        threading.Timer(0.1, cursor.cancel).start()
        raises(tds.Cancelled, cursor.nextset)
        assert firsts(cursor.execute(";".join(["rows 1 90"] * 200)).fetchall()) == [*range(1, 91)]
    raises(tds.Error, lambda: tds.connect("127.0.0.1", **how))
    with tds.Pool("localhost", most=1, **how) as pool:
        for _ in range(2):
            with pool.connection() as connection:
                assert firsts(connection.cursor().execute("rows 3 1").fetchall()) == [3]
        assert pool.statistics().opened == 1


async def by_tasks(how):
    connection = await aio.connect("localhost", **how)
    cursor = await connection.cursor().execute(";".join(["rows 7 90"] * 200))
    assert firsts(await cursor.fetchall()) == [*range(7, 97)]
    cursor.cancel()
    assert firsts(await (await cursor.execute("rows 1 1")).fetchall()) == [1]
    await connection.close()


def main():
    with tempfile.TemporaryDirectory() as room:
        subprocess.run(["openssl", "req", "-x509", "-newkey", "rsa:2048", "-nodes", "-days", "2", "-subj", "/CN=localhost", "-keyout",
                        f"{room}/key.pem", "-out", f"{room}/cert.pem"], check=True, capture_output=True)
        Peer.context = ssl.SSLContext(ssl.PROTOCOL_TLS_SERVER)
        Peer.context.load_cert_chain(f"{room}/cert.pem", f"{room}/key.pem")
        tds_server.Peer = Peer
        with tds_server.Server() as server:
            how = {"port": server.port, "user": "a", "password": "b", "autocommit": True, "timeout": 20, "cafile": f"{room}/cert.pem"}
            raises(tds.OperationalError, lambda: tds.connect("127.0.0.1", **dict(how, cafile=f"{room}/nowhere.pem")))
            by_threads(how)
            asyncio.run(by_tasks(how))
    print("the DB-API module with TLS, all right")


if __name__ == "__main__":
    main()
