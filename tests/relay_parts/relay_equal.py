"""Scenes of tests/relay: whose login is equal, and who is authenticated by the server itself.

The places of LOGIN7's fields are written from MS-TDS 2.2.6.4.
"""

import struct

from peers import Relay, connect, message, packet
from relay_servers import Before

PLACES = dict(host=36, user=40, password=44, program=48, server=52, library=60, language=64, database=68)
USUAL = dict(host="here", user="sa", password="pass", program="app", server="db", library="lib",
             language="us", database="base")

# What makes a session: a byte of each field, and what it is. The second byte of flags has no bit that asks for SSPI,
# the third none for a new password or features.
SESSION = dict(version=(4, 1), size=(9, 0x20), client=(12, 7), flags_1=(24, 0x20), flags_2=(25, 1), types=(26, 1),
               flags_3=(27, 8), zone=(28, 60), locale=(32, 9))

# What is of the application alone: its process, the connection's number, the client's own number.
OWN = dict(process=(16, 5), connection=(20, 5), client_id=(72, 5))


def saying(byte=None, **texts):
    """A LOGIN7 of TDS 7.4 with these texts in the place of the usual ones, and one byte of its fixed fields that is
    this."""
    data = bytearray(94)
    struct.pack_into("<III", data, 4, 0x74000004, 4096, 0x01020304)
    for name, place in PLACES.items():
        text = texts.get(name, USUAL[name]).encode("utf-16le")
        struct.pack_into("<HH", data, place, len(data), len(text) // 2)
        data += text
    if byte:
        data[byte[0]] = byte[1]
    struct.pack_into("<I", data, 0, len(data))
    return bytes(data)


def equals(program, cases, server):
    """Only whose login is equal in all that makes a session is authenticated without the server."""
    with Before(server) as before, Relay(program, before, 1) as relay:

        def authenticated(login):
            """Whether the server was asked about this login, and by it."""
            count = len(before.logins)
            with connect(relay.port) as link:
                link.sendall(packet(0x10, login))
                if 0xAD not in message(link):
                    return "not authenticated"
            return [] if len(before.logins) == count else before.logins[count:]

        usual = saying()
        cases.check("the first one is authenticated, by its own login", authenticated(usual) == [usual])
        cases.check("an equal one isn't", authenticated(usual) == [])
        for name in ("password", *(it for it in PLACES if it not in ("password", "host"))):
            other = saying(**{name: USUAL[name] + "2"})
            cases.check(f"another {name} is authenticated", authenticated(other) == [other])
            other = saying(**{name: USUAL[name].upper()})
            cases.check(f"the same length of another {name} is", authenticated(other) == [other])
        for name, byte in SESSION.items():
            other = saying(byte)
            cases.check(f"another {name} is authenticated", authenticated(other) == [other])
        other = saying(user="sap", password="ass")
        cases.check("two texts that are equal joined", authenticated(other) == [other])
        for name, byte in OWN.items():
            cases.check(f"another {name} isn't authenticated", authenticated(saying(byte)) == [])
        cases.check("nor another host", authenticated(saying(host="there")) == [])
