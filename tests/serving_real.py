"""What tests/serving looks at of `--real`, by the layouts of MS-TDS, and of `--replay`."""

import json
import struct
import tempfile

from cases import DATA, ran, rows
from peers import ATTENTION, Server, batch, connect, exactly, login, message, packet

SERVE = f"{DATA}/serve"
COLLATION = "0904d00034"


def units(text):
    return text.encode("utf-16le").hex()


def counted(kind, body):
    """A token with the count of its bytes in two."""
    return f"{kind:02x} {struct.pack('<H', len(bytes.fromhex(body))).hex()} {body}"


def short(text):
    """A text behind the count of its units."""
    return f"{len(text):02x} {units(text)}"


def info(number, text):
    """INFO of state 1, class 0, by this server in line 1 (MS-TDS 2.2.7.13)."""
    front = struct.pack("<IBBH", number, 1, 0, len(text)).hex()
    return counted(0xAB, f"{front} {units(text)} {short('tdsserve')} 00 01000000")


def data_of(link):
    """The status and the data of one packet."""
    header = exactly(link, 8)
    return header[1], exactly(link, struct.unpack(">H", header[2:4])[0] - 8)


def asked(port, *sent):
    """The data of the answers to these messages."""
    link = connect(port)
    answers = []
    for it in sent:
        link.sendall(it)
        answers.append(message(link))
    link.close()
    return answers


def shapes(program, cases):
    """The bytes of `rows 7 2`, of a reset, and of a login in the shapes of a SQL Server's."""
    new_year = "08 0000000000 b3470b"
    columns = "81 0400" + "".join(f" 00000000 0900 {kind} 01 {units(name)}" for name, kind in (
        ("n", "26 04"), ("t", f"e7 2800 {COLLATION}"), ("d", "2a 07"), ("m", "6a 09 12 02")))
    order = "a9 0200 0100"
    row = f"d1 04 07000000 0600 {units('row')} {new_year} 09 01 bc02000000000000"
    null_row = f"d2 0a 04 08000000 {new_year}"
    dones = "fd 1100 0000 0200000000000000 fd 0000 0000 0000000000000000"
    database = f"e3 1300 01 {short('main')} {short('main')}"
    with Server(program, "--real") as server:
        told = asked(server.port, login(), batch("rows 7 2"))[1]
        cases.same("rows in real shapes", told, bytes.fromhex(" ".join((columns, order, row, null_row, dones))))
        link = connect(server.port)
        link.sendall(login())
        message(link)
        link.sendall(batch("say one", status=9))
        cases.same("what is told with a reset, in one packet", data_of(link)[1],
                   bytes.fromhex(f"{database} e3 0800 07 05 {COLLATION} 00 e3 0300 12 00 00"))
        link.close()
        told = asked(server.port, login(), batch("set language French"), batch("use other"))
        done = "fd 0000 0000 0000000000000000"
        cases.same("a language is chosen", told[1], bytes.fromhex(" ".join((
            counted(0xE3, f"02 {short('French')} {short('us_english')}"),
            info(5703, "Changed language setting to French."), done))))
        cases.same("a database is chosen", told[2], bytes.fromhex(" ".join((
            counted(0xE3, f"01 {short('other')} {short('main')}"),
            info(5701, "Changed database context to 'other'."), done))))


def featured(features):
    """A LOGIN7 with these features (MS-TDS 2.2.6.4): their place stands behind the fixed part, and they behind
    that."""
    plain = bytearray(login()[8:])
    plain[27] |= 0x10
    plain[56:60] = struct.pack("<HH", len(plain), 4)
    data = bytes(plain) + struct.pack("<I", len(plain) + 4) + features
    return packet(0x10, struct.pack("<I", len(data)) + data[4:])


def logins(program, cases):
    """What a login is told in real shapes, with the feature of UTF-8 (MS-TDS 2.2.7.11) and without."""
    front = " ".join((
        counted(0xE3, f"01 {short('main')} {short('master')}"),
        info(5701, "Changed database context to 'main'."),
        f"e3 0800 07 05 {COLLATION} 00",
        counted(0xE3, f"02 {short('us_english')} 00"),
        info(5703, "Changed language setting to us_english."),
        counted(0xE3, f"04 {short('4096')} {short('4096')}"),
        counted(0xAD, f"01 74000004 {short('tdsserve')} 0b000001")))
    done = "fd 0000 0000 0000000000000000"
    acknowledged = "ae 0a 01000000 00 ff"
    utf8, other = b"\x0a\0\0\0\0", b"\x05\x02\0\0\0ab"
    with Server(program, "--real") as server:
        for name, sent, more in (("a login", login(), ""), ("a login with UTF-8", featured(utf8 + b"\xff"), acknowledged),
                                 ("with another feature", featured(other + b"\xff"), ""),
                                 ("with both", featured(other + utf8 + b"\xff"), acknowledged),
                                 ("with features that don't end", featured(other + utf8[:1]), ""),
                                 ("with a feature that is too long", featured(b"\x05\xff\xff\xff\xff" + utf8), "")):
            cases.same(f"{name}, in real shapes", asked(server.port, sent)[0],
                       bytes.fromhex(f"{front} {more} {done}"))
    with Server(program) as server:
        cases.check("no feature is acknowledged otherwise", bytes([0xAE]) not in
                    asked(server.port, featured(utf8 + b"\xff"))[0][-30:])


def cut_rows(program, cases):
    """A cancel in the middle of a long answer: its message ends inside a row, and what acknowledges it is its
    own (MS-TDS 2.2.1.7). The tokens before the rows have 60 bytes, two rows 33 and 16."""
    with tempfile.TemporaryDirectory() as room:
        with open(f"{room}/script.json", "w", encoding="ascii") as it:
            it.write('{"version": 1, "events": [["hold", 1, 1]]}')
        with Server(program, "--real") as server:
            whole = asked(server.port, login(size=512), batch("rows 7 40"))[1]
        with Server(program, "--real", "--script", f"{room}/script.json") as server:
            link = connect(server.port)
            link.sendall(login(size=512))
            message(link)
            link.sendall(batch("rows 7 40"))
            came = [data_of(link)]
            link.sendall(ATTENTION)
            came += [data_of(link), data_of(link)]
            told = came[0][1] + came[1][1]
            cases.same("the packets of a cut answer", [status for status, _ in came], [0, 1, 1])
            cases.same("its bytes are those of the whole one", told, whole[:len(told)])
            inside = (len(told) - 60) % 49
            cases.check("it ends inside a row", inside not in (0, 33), len(told))
            cases.same("its acknowledgement", came[2][1].hex(), "fd20000000" + "00" * 8)
            link.sendall(batch("get a"))
            cases.same("the next request", message(link)[:1], b"\x79")
            link.close()


def wrong_recordings(program, cases):
    """Files that are no recordings, and what is said of them."""
    with tempfile.TemporaryDirectory() as room:
        for name, given, wanted in rows(f"{SERVE}/wrong_recordings.txt"):
            with open(f"{room}/f", "w", encoding="utf-8") as it:
                it.write(given)
            told = ran([program, "127.0.0.1:0", "--replay", "f"], cwd=room)
            cases.same(f"a recording: {name}", told, (b"", wanted.encode(), 2))
        told = ran([program, "127.0.0.1:0", "--replay", "f", "--script", "f"], cwd=room)
        cases.same("two files", told, (b"", b"error: --script and --replay: one of the two\n", 2))
        with open(f"{room}/f", "w", encoding="utf-8") as it:
            json.dump({"format": "tdsprobe recording", "version": 1, "probes": [], "more": [None]}, it)
        with Server(program, "--replay", f"{room}/f") as server:
            cases.check("an empty recording lets in", asked(server.port, login())[0].startswith(b"\xe3"))
