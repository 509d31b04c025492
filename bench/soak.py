"""The soak of bench/relay: random applications of tests/relay while the server is killed and begun anew, and single
connections to it are cut."""

import asyncio
import random
import socket
import struct
import threading

from peers import Relay, Server, connect
from processes import memory
from relay_applications import APPLICATIONS, Random

# How long random applications go on in a minute.
SOAK_SECONDS = 55


def soak(program, serve, minutes):
    seed = random.randrange(1 << 20)
    rng = random.Random(seed)
    server = Server(serve)
    port = server.port
    sessions, killed, wrong, is_over = 0, 0, [], threading.Event()
    print(f"seed {seed}\n\n| minute | memory, KB | sessions | the server killed | connections cut |\n|---|---|---|---|---|", flush=True)

    def kill():
        """kill -9, and the same port again."""
        nonlocal killed, server
        while not is_over.wait(rng.random() * 8):
            server.child.kill()
            server.child.wait()
            server = Again(serve, port)
            killed += 1

    between = Between(port, is_over)
    with Relay(program, between, 4, "--login", "3", "--cancel", "3") as relay:
        for it in (kill, between.cut):
            threading.Thread(target=it, daemon=True).start()
        for minute in range(minutes):
            random_ones = Random(relay.port, seed + minute, goes_down=True)
            asyncio.run(guarded(random_ones))
            sessions += random_ones.seen["sessions"]
            wrong += random_ones.wrong
            print(f"| {minute + 1} | {memory(relay.child.pid)} | {sessions} | {killed} | {between.count} |", flush=True)
        is_over.set()
        alive = relay.is_alive()
    server.child.kill()
    print(f"\n{len(wrong)} wrong; the relay {'goes on' if alive else 'HAS ENDED'}.")
    for line in wrong[:5]:
        print(f"  {line}")
    return alive and not wrong


class Between:
    """Passes each connection on to a server, and cuts one of them now and then."""

    def __init__(self, port, is_over):
        self.server, self.is_over = port, is_over
        self.listener = socket.create_server(("127.0.0.1", 0))
        self.port = self.listener.getsockname()[1]
        self.links, self.count = [], 0
        threading.Thread(target=self.accept, daemon=True).start()

    def accept(self):
        while True:
            near, _ = self.listener.accept()
            try:
                far = connect(self.server)
            except OSError:
                near.close()
                continue
            for it in (near, far):
                it.settimeout(None)
                it.setsockopt(socket.IPPROTO_TCP, socket.TCP_NODELAY, 1)
            self.links.append((near, far))
            for ends in ((near, far), (far, near)):
                threading.Thread(target=self.pump, args=(ends, (near, far)), daemon=True).start()

    def pump(self, ends, link):
        try:
            while data := ends[0].recv(65536):
                ends[1].sendall(data)
        except OSError:
            pass
        self.end(link)

    def end(self, link):
        """Both of its sockets end. The system tells the other ends so at once where bytes are left unread."""
        if link in self.links:
            self.links.remove(link)
        for it in link:
            try:
                it.shutdown(socket.SHUT_RDWR)
            except OSError:
                pass
            it.close()

    def cut(self):
        rng = random.Random(self.port)
        while not self.is_over.wait(rng.random() * 2):
            links = list(self.links)
            if links:
                self.end(rng.choice(links))
                self.count += 1


async def guarded(random_ones):
    """Random applications that may be cut at any time, since the server is killed: what isn't cut must be right."""
    async def one(place):
        rng = random.Random(random_ones.seed * 1000 + place)
        until = asyncio.get_running_loop().time() + SOAK_SECONDS
        number = 0
        while asyncio.get_running_loop().time() < until:
            number += 1
            try:
                await random_ones.session(place, rng, number)
            except (OSError, asyncio.IncompleteReadError):
                await asyncio.sleep(0.05)
            except (asyncio.TimeoutError, struct.error, TypeError, IndexError) as error:
                random_ones.wrong.append(f"{place}: {error!r}")
                return
    await asyncio.gather(*(one(place) for place in range(APPLICATIONS)))


class Again(Server):
    """A tdsserve on the port that another one had."""

    def __init__(self, program, port):
        self.start(program, f"127.0.0.1:{port}")
