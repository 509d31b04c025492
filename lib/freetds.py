"""Answers through FreeTDS: a server that gives them, a client of CT-Library that asks for each (reads.c), and the tokens that
FreeTDS's own log says that it came by."""
import os
import re
import socket
import struct
import subprocess
import threading

from wireshark import packets

HERE = f"{os.path.dirname(os.path.dirname(os.path.abspath(__file__)))}/beside/wire_peers"
CONF = "[peer]\n host = 127.0.0.1\n port = {port}\n tds version = 7.4\n encryption = off\n client charset = UTF-8\n"
LOGGED_IN = bytes.fromhex("ad1000017400000403530051004c00100000fa" "fd000000000000000000000000")
PRELOGIN = bytes.fromhex("00000b000601001100 01ff" "0f0007d00000" "02".replace(" ", ""))
DONE = b"\xfd" + bytes(12)


def request(link):
    """A message that the client sends: its type and its data."""
    data = b""
    while True:
        header = exactly(link, 8)
        data += exactly(link, struct.unpack(">H", header[2:4])[0] - 8)
        if header[1] & 1:
            return header[0], data


def exactly(link, count):
    got = b""
    while len(got) < count:
        more = link.recv(count - len(got))
        if not more:
            raise EOFError
        got += more
    return got


def serve(link, answers, sizes):
    """One connection. A batch that is a number asks for that answer."""
    try:
        while True:
            kind, data = request(link)
            if kind == 0x12:
                answer, size = PRELOGIN, 4088
            elif kind == 0x10:
                answer, size = LOGGED_IN, 4088
            elif kind == 6:
                answer, size = b"\xfd\x20" + bytes(11), 4088
            else:
                skip = struct.unpack("<I", data[:4])[0] if data[:4] == b"\x16\0\0\0" else 0
                text = data[skip:].decode("utf-16-le")
                which = int(text) if text.isdigit() else None
                answer, size = (DONE, 4088) if which is None else (answers[which].data, sizes[which])
            link.sendall(b"".join(packets(answer, size)))
    except (EOFError, OSError):
        link.close()


def asked(answers, sizes, room):
    """For each answer: results, rows, whether FreeTDS read it to its end, and the tokens that it came by."""
    server = socket.create_server(("127.0.0.1", 0))
    port = server.getsockname()[1]
    def accept():
        while True:
            try:
                link, _ = server.accept()
            except OSError:
                return
            threading.Thread(target=serve, args=(link, answers, sizes), daemon=True).start()
    threading.Thread(target=accept, daemon=True).start()
    with open(f"{room}/conf", "w") as conf:
        conf.write(CONF.format(port=port))
    subprocess.run(["cc", "-O1", "-o", f"{room}/reads", f"{HERE}/reads.c", "-lct"], check=True)
    env = dict(os.environ, FREETDSCONF=f"{room}/conf", TDSDUMP="stderr", LC_ALL="C.UTF-8")
    with open(f"{room}/log", "wb") as log:
        run = subprocess.run([f"{room}/reads", "peer", str(len(answers))], env=env, stdout=subprocess.PIPE, stderr=log, text=True)
    server.close()
    found = {}
    for line in run.stdout.splitlines():
        which, results, rows, parameters, end = line.split()
        found[int(which)] = int(results), int(rows), end == "read"
    return found, tokens_of_log(f"{room}/log")


def tokens_of_log(path):
    """For each answer the first bytes of its tokens, in the order in which FreeTDS's log has them. A token that it puts back
    to read it later stands twice there, one behind the other."""
    found, tokens, which = {}, [], -1
    for line in open(path, "rb"):
        token = re.search(rb"processing result tokens.  marker is +([0-9a-f]+)\(", line)
        if b"ct_send(0x" in line:
            which += 1
            tokens = found[which] = []
        elif token:
            tokens.append(int(token[1], 16))
    return found
