"""A place before a server that says some answers twice: what nobody asked for, and a driver then takes for the next answer."""

import contextlib
import socket
import threading


def messages(source):
    """The messages that a socket brings, each with its packets as they came."""
    begun, message = bytearray(), b""
    while part := source.recv(65536):
        begun += part
        while len(begun) >= 8 and len(begun) >= (size := max(8, int.from_bytes(begun[2:4], "big"))):
            packet = bytes(begun[:size])
            del begun[:size]
            message += packet
            if packet[1] & 1:
                yield message
                message = b""


class Twice:
    """It listens at `port`, and the server stands behind it. A request with `text` in it is answered twice."""

    def __init__(self, server, text="say twice"):
        self.server, self.marks = server, text.encode("utf-16-le")
        self.place = socket.create_server(("127.0.0.1", 0), backlog=256)
        self.port = self.place.getsockname()[1]
        threading.Thread(target=self.serve, daemon=True).start()

    def __enter__(self):
        return self

    def __exit__(self, *_):
        self.place.close()

    def serve(self):
        with contextlib.suppress(OSError):
            while True:
                client, _ = self.place.accept()
                server = socket.create_connection(("127.0.0.1", self.server.port))
                for it in (client, server):
                    it.setsockopt(socket.IPPROTO_TCP, socket.TCP_NODELAY, 1)
                asked = threading.Event()
                threading.Thread(target=self.ask, args=(client, server, asked), daemon=True).start()
                threading.Thread(target=self.answer, args=(server, client, asked), daemon=True).start()

    def ask(self, client, server, asked):
        with contextlib.suppress(OSError):
            for message in messages(client):
                if self.marks in message:
                    asked.set()
                server.sendall(message)
        with contextlib.suppress(OSError):
            server.shutdown(socket.SHUT_WR)

    def answer(self, server, client, asked):
        with contextlib.suppress(OSError):
            for message in messages(server):
                if asked.is_set():
                    asked.clear()
                    message *= 2
                client.sendall(message)
        with contextlib.suppress(OSError):
            client.shutdown(socket.SHUT_WR)
