"""The DB-API module where the login is by NTLM (SSPI: MS-TDS 2.2.6.4, 2.2.6.8, 2.2.7.22), before the server of tds_server.py: by messages
of this file's own, and by python-tds's NtlmAuth where Debian's python3-ntlm-auth is here. Whether a password is right nobody says.

    python3 test_tds_ntlm.py     wants python-tds, and says so where that isn't here."""

import asyncio
import struct

import tds_server
from test_tds import LAST, firsts, raises
from mouktelf import tds
from mouktelf.tds import aio

# The answer is a message of type 17 (MS-TDS 2.2.3.1.1); python-tds goes on in that of its LOGIN7.
LOGIN, INTEGRATED, NONCE = 16, 0x80, bytes(range(0x10, 0x18))
# Unicode, target's name, NTLM, extended session security (MS-NLMP 2.2.2.5).
FLAGS = 0x1 | 0x4 | 0x200 | 0x80000
NEGOTIATES, ANSWERS = b"NTLMSSP\0\1\0\0\0" + bytes(20), b"NTLMSSP\0\3\0\0\0" + bytes(52)


def challenge():
    """A CHALLENGE_MESSAGE (MS-NLMP 2.2.1.2), for the domain `D`."""
    name = struct.pack("<HHI", 2, 2, 56)
    return b"NTLMSSP\0\2\0\0\0" + name + struct.pack("<I", FLAGS) + NONCE + bytes(8) + struct.pack("<HHI", 0, 0, 58) + bytes(8) + b"D\0"


class Peer(tds_server.Peer):
    """Asks for the answer to a challenge."""

    told = []

    def serve(self):
        self.message()
        self.link.sendall(tds_server.packet(tds_server.PRELOGIN_ANSWER))
        login = self.message()[2]
        at, count = struct.unpack_from("<HH", login, 78)
        self.told.append((login[25] & INTEGRATED, login[at: at + count]))
        token = challenge()
        self.link.sendall(tds_server.packet(b"\xED" + struct.pack("<H", len(token)) + token))
        kind, status, data = self.message()
        self.told.append((kind, status, data))
        self.link.sendall(tds_server.packet(tds_server.login_answer()))
        while True:
            self.request(*self.message())


class Scripted:
    """Says these messages, whatever it is asked."""

    heard, is_closed = b"", False

    def create_packet(self):
        return NEGOTIATES

    def handle_next(self, packet):
        self.heard = packet
        return ANSWERS

    def close(self):
        self.is_closed = True


def field(message, at):
    """What the fields of a message say at this place: how long, and where."""
    count, _, start = struct.unpack_from("<HHI", message, at)
    return message[start: start + count]


def by_its_own(server):
    auth = Scripted()
    with tds.connect("127.0.0.1", port=server.port, auth=auth, autocommit=True, timeout=20) as connection:
        assert Peer.told == [(INTEGRATED, NEGOTIATES), (LOGIN, LAST, ANSWERS)] and auth.heard == challenge() and auth.is_closed, Peer.told
        cursor = connection.cursor().execute("rows 7 2;wait")
        assert firsts(cursor.fetchall()) == [7, 8] and cursor.cancel()
        raises(tds.Cancelled, cursor.fetchone)
        assert firsts(cursor.execute("rows 1 1").fetchall()) == [1]
    # A pool logs in with the same, connection by connection.
    with tds.Pool("127.0.0.1", port=server.port, auth=Scripted(), autocommit=True, most=2, least=2) as pool, pool.connection() as connection:
        assert firsts(connection.cursor().execute("rows 3 1").fetchall()) == [3] and pool.statistics().opened == 2
    asyncio.run(by_tasks(server))
    assert Peer.told == [(INTEGRATED, NEGOTIATES), (LOGIN, LAST, ANSWERS)] * 4


async def by_tasks(server):
    connection = await aio.connect("127.0.0.1", port=server.port, auth=Scripted(), autocommit=True, timeout=20)
    assert firsts(await (await connection.cursor().execute("rows 5 1")).fetchall()) == [5]
    await connection.close()


def by_ntlm_auth(server):
    try:
        import ntlm_auth.ntlm  # noqa: F401
        from pytds.login import NtlmAuth
    except ImportError:
        return "python3-ntlm-auth isn't here"
    Peer.told.clear()
    with tds.connect("127.0.0.1", port=server.port, auth=NtlmAuth("d\\user", "secret"), autocommit=True, timeout=20) as connection:
        assert firsts(connection.cursor().execute("rows 7 1").fetchall()) == [7]
    (is_integrated, first), (kind, status, second) = Peer.told
    assert is_integrated and first[:12] == NEGOTIATES[:12] and (kind, status) == (LOGIN, LAST)
    # An AUTHENTICATE_MESSAGE (MS-NLMP 2.2.1.3): whose it is, and an answer of 24 bytes; the password isn't in it.
    assert second[:12] == ANSWERS[:12] and len(field(second, 20)) == 24 and b"s\0e\0c\0r\0" not in second
    assert [field(second, at).decode("utf-16-le") for at in (28, 36)] == ["D", "user"], second
    return "and by python3-ntlm-auth"


def main():
    tds_server.Peer = Peer
    with tds_server.Server() as server:
        by_its_own(server)
        told = by_ntlm_auth(server)
    print(f"the DB-API module with NTLM, {told}, all right")


if __name__ == "__main__":
    main()
