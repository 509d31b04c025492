"""Tests of the probe, against a small peer of their own. What is expected was written by hand from MS-TDS."""

import json
import os
import shutil
import ssl
import subprocess
import tempfile
import unittest
import unittest.mock

from . import attentions, recording, running, session, sharing, tokens, wire
from .peer import ACKNOWLEDGED, DONE, Peer
from .registry import PROBES
from .session import Refused, Server, Session

PASSWORD = "Geheim-7"
MADE = running.Made("t", "u", "r", "Aa1-role")


class Spelling(unittest.TestCase):
    """What is sent, against bytes by hand."""

    def same(self, data, digits):
        self.assertEqual(data.hex(), "".join(digits.split()).lower())

    def test_password(self):
        # a is 61 00: halves changed over 16 00, and A5 over that
        self.same(wire.obscured("a"), "B3 A5")

    def test_prelogin(self):
        self.same(wire.prelogin(wire.OFF), """00 001A 0006  01 0020 0001  02 0021 0001  03 0022 0004  04 0026 0001  FF
                                              10 00 0000 0000  00  00  00000000  00""")

    def test_begin(self):
        self.same(wire.packet(wire.MANAGER, wire.begin()),
                  "0E01002200000100 16000000 12000000 0200 0000000000000000 01000000 0500 00 00")

    def test_commit_and_begin(self):
        self.same(wire.commit(3, begins=True), "16000000 12000000 0200 0300000000000000 01000000 0700 00 01 00 00")

    def test_savepoint(self):
        self.same(wire.save(1, "p")[22:], "0900 02 7000")

    def test_attention(self):
        self.same(wire.packet(wire.ATTENTION, b""), "0601000800000100")

    def test_batch_with_a_reset(self):
        cut = wire.packets(wire.BATCH, wire.batch("x"), wire.RESET)
        self.same(cut[0], "0109002000000100 16000000 12000000 0200 0000000000000000 01000000 7800")
        self.assertEqual(len(cut), 1)

    def test_two_packets(self):
        first, second = wire.packets(wire.BATCH, bytes(4089), wire.RESET)
        self.same(first[:8], "0108100000000100")
        self.same(second, "0101000900000200 00")

    def test_call(self):
        self.same(wire.call(wire.EXECUTE_SQL, wire.words("x")), "FFFF 0A00 0000 00 00 E7 401F 0904D00034 0200 7800")
        self.same(wire.call("p", wire.integer(7), wire.integer(is_output=True)),
                  "0100 7000 0000  00 00 26 04 04 07000000  00 01 26 04 00")

    def test_login(self):
        data = wire.login7("u", "a", "d", "s")
        # 94 bytes of what has fixed places, and tdsprobe three times, u, a, s, d: 94 + 48 + 8 = 150
        self.assertEqual(len(data), 150)
        self.same(data[:8], "96000000 04000074")
        self.same(data[36:48], "5E00 0800 6E00 0100 7000 0100")
        self.same(data[112:114], "B3A5")


class Reading(unittest.TestCase):
    """What is read, of answers by hand."""

    def lines(self, digits):
        read = tokens.Tokens(bytes.fromhex("".join(digits.split())))
        return [it.line for it in read.found], read.stopped

    def test_rows(self):
        columns = "81 0200 00000000 0900 26 04 01 6E00 00000000 0900 E7 0800 0904D00034 01 7300"
        self.assertEqual(self.lines(columns + "D1 04 07000000 0200 6100  D2 01 FFFF  FD 1000 C100 0200000000000000"),
                         (["columns ['n', 's']", "row 07000000, 6100", "row ", "done 0010 193 2"], None))

    def test_cut_in_a_row(self):
        columns = "81 0100 00000000 0900 E7 FFFF 0904D00034 00"
        self.assertEqual(self.lines(columns + "D1 FEFFFFFFFFFFFFFF 04000000 61006200"),
                         (["columns ['']"], "cut at 18 of 35"))

    def test_changes_and_errors(self):
        self.assertEqual(self.lines("E3 0B00 08 08 0100000000000000 00"), (["env 8 08010000000000000000"], None))
        self.assertEqual(self.lines("AA 1200 18480000 01 0E 0200 6E006F00 00 00 01000000"),
                         (["error 18456 state 1 class 14 'no'"], None))

    def test_procedure(self):
        self.assertEqual(self.lines("AC 0000 01 6800 01 00000000 0000 26 04 04 01000000"
                                    "79 00000000  FE E000 E000 0000000000000000"),
                         (["value 'h' 01000000", "status 0", "doneproc 00e0 224 0"], None))

    def test_unread(self):
        self.assertEqual(self.lines("FD 0100 0000 0000000000000000 88"), (["done 0001 0 0"], "unread at 13: token 88"))

    def test_acknowledgement(self):
        self.assertEqual([it.acknowledges for it in tokens.Tokens(DONE + ACKNOWLEDGED).found], [False, True])


def certified(folder):
    """A certificate for localhost and 127.0.0.1, as its file and a server's context."""
    pem, key = f"{folder}/it.pem", f"{folder}/it.key"
    subprocess.run(["openssl", "req", "-x509", "-newkey", "ec", "-pkeyopt", "ec_paramgen_curve:P-256", "-nodes",
                    "-keyout", key, "-out", pem, "-subj", "/CN=localhost",
                    "-addext", "subjectAltName=DNS:localhost,IP:127.0.0.1"], check=True, capture_output=True)
    context = ssl.SSLContext(ssl.PROTOCOL_TLS_SERVER)
    context.load_cert_chain(pem, key)
    return pem, context


def trusting(pem):
    context = ssl.create_default_context(cafile=pem)
    context.maximum_version = ssl.TLSVersion.TLSv1_2
    return context


def server(peer, context=None, **more):
    more.setdefault("is_clear", context is None)
    return Server("127.0.0.1", peer.port, "user", PASSWORD, "base", context=context, patience=0.5, **more)


def digits_of(events):
    """What was sent and what came, in digits."""
    return [(it["way"], it["hex"]) for it in events if "hex" in it]


class Logins(unittest.TestCase):
    def test_clear(self):
        with Peer() as peer:
            events = []
            Session(server(peer), events).close()
            self.assertEqual(peer.came[0][1][8:], wire.login7("user", PASSWORD, "base", "127.0.0.1"))
            hidden = wire.packet(wire.LOGIN7, wire.login7("user", "********", "base", "127.0.0.1"))
            self.assertEqual(events[2]["hex"], hidden.hex())
            self.assertEqual(events[3]["tokens"], ["loginack 'Microsoft SQL Server' 16.0.4135", "done 0000 193 0"])

    def test_clear_is_asked_for(self):
        with Peer() as peer, self.assertRaisesRegex(Refused, "doesn't encrypt"):
            Session(server(peer, is_clear=False), [])
        self.assertEqual(len(peer.came[0]), 1)

    def test_clear_where_encryption_is_demanded(self):
        with Peer(encryption=3) as peer, self.assertRaisesRegex(Refused, "demands encryption"):
            Session(server(peer), [])

    def test_refused(self):
        with Peer(lets_in=False) as peer, self.assertRaisesRegex(Refused, "error 18456 state 1 class 14 'no'"):
            Session(server(peer), [])


@unittest.skipUnless(shutil.which("openssl"), "openssl makes the certificate")
class Encrypted(unittest.TestCase):
    @classmethod
    def setUpClass(cls):
        cls.room = tempfile.TemporaryDirectory()
        cls.pem, cls.context = certified(cls.room.name)

    @classmethod
    def tearDownClass(cls):
        cls.room.cleanup()

    def recorded(self, encryption):
        """A login and a batch at this word of the server: the recording, and what the peer decrypted."""
        with Peer(encryption, self.context) as peer:
            events = []
            it = Session(server(peer, trusting(self.pem), encrypts_all=encryption == wire.ON), events)
            it.run("select 1")
            it.close()
            return events, peer.came[0]

    def test_login_alone_and_all(self):
        for encryption in (wire.OFF, wire.ON, wire.REQ):
            events, came = self.recorded(encryption)
            self.assertEqual(came[-2][8:], wire.login7("user", PASSWORD, "base", "127.0.0.1"))
            self.assertEqual(digits_of(events)[-2:], [
                ("to server", "0101002e00000100" "16000000120000000200000000000000000001000000"
                              "730065006c0065006300740020003100"),
                ("to client", "0401001500000100" "fd0000c1000000000000000000")])
            self.assertTrue(all(wire.obscured(PASSWORD).hex() not in digits for _, digits in digits_of(events)))

    def test_wrong_certificate(self):
        with Peer(wire.ON, self.context) as peer, self.assertRaises(ssl.SSLCertVerificationError):
            Session(server(peer, trusting(None)), [])


class Probes(unittest.TestCase):
    def setUp(self):
        self.kept = session.QUIET, attentions.A_WHILE
        session.QUIET = attentions.A_WHILE = 0.05

    def tearDown(self):
        session.QUIET, attentions.A_WHILE = self.kept

    def came(self, name, **peer):
        """What the peer's first connection was sent by a probe."""
        with Peer(**peer) as it:
            running.held(server(it), MADE, name, "", PROBES[name])
            return it.came[0]

    def held(self, name, **peer):
        with Peer(**peer) as it:
            return running.held(server(it), MADE, name, "", PROBES[name])

    def test_bytes_of_an_idle_attention(self):
        it = self.held("attention_when_idle")
        self.assertEqual(digits_of(it["connections"][0])[4:6],
                         [("to server", "0601000800000100"), ("to client", "0401001500000100" "fd20000000" + 16 * "0")])
        self.assertEqual(it["ended"], "done")

    def test_half_a_request(self):
        came = self.came("attention_in_half_a_request")
        self.assertEqual([it[:4].hex() for it in came[2:5]], ["01001000", "01001000", "06010008"])

    def test_half_a_request_to_be_ignored(self):
        came = self.came("ignored_request_and_attention")
        self.assertEqual([it[:7].hex() for it in came[3:6]], ["01001000000002", "01030008000003", "06010008000001"])

    def test_transaction_is_followed(self):
        came = self.came("descriptor_left_out")
        self.assertEqual([it[18:26].hex() for it in came[2:]], ["00" * 8, "00" * 8, "01" + "00" * 7])

    def test_end_of_a_transaction_is_followed(self):
        rolled_back = bytes.fromhex("E3 0B00 0A 00 08 0100000000000000")
        came = self.came("transaction_ended_by_xact_abort", answers={"select 1/0": rolled_back + DONE})
        self.assertEqual([it[18] for it in came[2:]], [0, 1, 1, 0])

    def test_reset_names_no_transaction(self):
        came = self.came("reset_in_a_transaction")
        self.assertEqual([(it[1], it[18]) for it in came[2:]], [(1, 0), (1, 1), (9, 0), (1, 0)])

    def test_closed(self):
        it = self.held("reset_under_an_application_role", answers={"sp_setapprole": None})
        self.assertEqual(it["ended"], "the server closed the connection: end of the stream")
        self.assertEqual(it["connections"][0][-1]["way"], "closed by server")

    def test_cut_answer(self):
        it = self.held("answers_to_batches", answers={"@@version": b"\xfd\x00"})
        self.assertEqual(it["connections"][0][5]["tokens"], ["cut at 0 of 2"])

    def test_silent(self):
        with Peer() as peer:
            it = running.held(server(peer), MADE, "", "", lambda p: p.session().run("waitfor"))
        self.assertEqual(it["ended"], "nothing came for 0.5 seconds")

    def test_interrupted(self):
        def interrupt(_):
            """The user has seen enough."""
            raise KeyboardInterrupt
        with Peer() as peer, unittest.mock.patch.dict(PROBES, attention_when_idle=interrupt):
            to = server(peer)
            kept = running.run(to, "a peer", Session(to, []), ["attention_when_idle", "reset_plain"], lambda line: None)
            sent = [it[30:].decode("utf-16-le").split()[:2] for it in peer.came[2][2:]]
        self.assertEqual([it["name"] for it in kept["probes"]], ["prepare", "tidy"])
        self.assertEqual(sent, [["drop", "table"], ["drop", "user"], ["drop", "application"]])

    def test_all(self):
        with Peer() as peer:
            it = server(peer)
            kept = running.run(it, "a peer", Session(it, []), list(PROBES), lambda line: None)
        ended = {it["name"]: it["ended"] for it in kept["probes"] if it["ended"] != "done"}
        self.assertEqual(ended, {"error_of_an_unknown_message": "the server closed the connection: end of the stream"})
        self.assertEqual(len(kept["probes"]), len(PROBES) + 2)
        recording.check(kept, PASSWORD)


class Sharing(unittest.TestCase):
    """What answers mean for sharing by transactions, of tokens by hand: LOGINACK, FEATUREEXTACK with state 7 of four bytes
    and 9 without any, SESSIONSTATE, ENVCHANGE 18 (MS-TDS 2.2.7.11, 2.2.7.21, 2.2.7.9)."""
    ACK = "AD 0A00 01 74000004 00 00000000"
    LOGIN = ACK + "AE 01 08000000 07 04 00000000 09 00 FF"
    CHANGED, BACK = ("E4 0B000000 0{}000000 01 07 04 0{}000000".format(*it) for it in ((0, 5), (1, 0)))
    LOST, HELD = ("E4 07000000 0{}000000 0{} 09 00".format(*it) for it in ((0, 0), (1, 1)))

    def said(self, *answers, login=LOGIN, name="lock_timeout"):
        """What is said of a probe whose login and requests were answered so."""
        data = [bytes.fromhex("".join(it.split())) + DONE for it in (login, *answers)]
        events = [{"way": "to client", "hex": wire.packet(wire.REPLY, it).hex()} for it in data]
        return list(sharing.verdicts({"probes": [{"name": f"sharing_{name}", "connections": [events]}]}))

    def test_told_and_told_back(self):
        self.assertEqual(self.said(self.CHANGED, self.BACK), [
            "lock_timeout: told as changed by state 7, and told back: its application keeps the connection until then",
            "by these answers connections can be shared by transactions"])
        self.assertIn("unrecoverable by state 9, and told back", self.said(self.LOST, self.HELD)[0])

    def test_not_told(self):
        self.assertEqual(self.said("", ""), [
            "lock_timeout: NOT TOLD: who has it loses it with the connection",
            "share by sessions, because of: lock_timeout"])

    def test_not_told_back(self):
        self.assertIn("state 9, and not told back", self.said(self.LOST, "")[0])

    def test_not_acknowledged(self):
        self.assertEqual(self.said("", "", login=self.ACK),
                         ["the login doesn't acknowledge session recovery: share by sessions"])

    def test_wrong_tokens(self):
        self.assertIn("WRONG: a SESSIONSTATE has the number FFFFFFFF",
                      self.said(self.CHANGED.replace("00000000 01", "FFFFFFFF 01"), self.BACK)[0])
        self.assertIn("WRONG: a SESSIONSTATE can't be read", self.said("E4 07000000 00000000 01 07 04", "")[0])
        self.assertIn("WRONG: SESSIONSTATE 0 stands behind 0", self.said(self.CHANGED, self.CHANGED)[0])

    def test_cancel(self):
        acknowledged = "FD 2000 0000 0000000000000000"
        for answers, wanted in (((self.CHANGED + acknowledged, "", self.BACK), "told with the"),
                                ((acknowledged, self.CHANGED, self.BACK), "told behind the"), ((acknowledged, "", ""), "NOT TOLD")):
            self.assertIn(wanted, self.said(*answers, name="cancel")[0])

    def test_nothing_to_say(self):
        self.assertEqual(list(sharing.verdicts({"probes": []})), ["the recording has no probe of sharing"])


class Recordings(unittest.TestCase):
    def kept(self, server_is="a peer", **peer):
        with Peer(**peer) as it:
            to = server(it)
            return running.run(to, server_is, Session(to, []), ["attention_when_idle"], lambda line: None)

    def test_evidence(self):
        self.assertEqual(self.kept(program="tdsserve")["server"]["evidence"], "none: it doesn't call itself a SQL Server")
        self.assertIn("by the user's word", self.kept()["server"]["evidence"])

    def test_password_elsewhere(self):
        with tempfile.TemporaryDirectory() as room:
            with self.assertRaises(recording.Leaks):
                recording.write(self.kept(f"my {PASSWORD}"), f"{room}/it", PASSWORD)
            self.assertEqual(os.listdir(room), [])

    def test_password_in_bytes(self):
        for spelled in (wire.obscured(PASSWORD), wire.text(PASSWORD), PASSWORD.encode()):
            kept = {"probes": [{"connections": [[{"hex": (b"\1" + spelled + b"\2").hex()}]]}]}
            with self.assertRaises(recording.Leaks):
                recording.check(kept, PASSWORD)

    def test_written_and_read(self):
        with tempfile.TemporaryDirectory() as room:
            kept = self.kept()
            recording.write(kept, f"{room}/it", PASSWORD)
            self.assertEqual(recording.read(f"{room}/it"), kept)
            self.assertIn("      done 0020 0 0", list(recording.lines(kept)))

    def test_other_files(self):
        with tempfile.TemporaryDirectory() as room:
            with open(f"{room}/it", "w", encoding="utf-8") as it:
                json.dump({"format": "tdsprobe recording", "version": 2}, it)
            with self.assertRaisesRegex(ValueError, "of version 1"):
                recording.read(f"{room}/it")
