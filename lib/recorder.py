"""A relay that stands before a server and records every byte both ways, in the format of beside/tdsprobe
(beside/tdsprobe_parts/README.md). Nothing of it is evidence of a real server."""

import contextlib
import datetime
import json
import socket
import threading
import time


class Recorder:
    """Stands before the server at this port, until it is closed."""

    def __init__(self, port):
        self.to, self.connections, self.alone = port, [], threading.Lock()
        self.place = socket.create_server(("127.0.0.1", 0), backlog=256)
        self.port = self.place.getsockname()[1]
        threading.Thread(target=self.serve, daemon=True).start()

    def serve(self):
        with contextlib.suppress(OSError):
            while True:
                client, _ = self.place.accept()
                server = socket.create_connection(("127.0.0.1", self.to))
                for link in (client, server):
                    link.setsockopt(socket.IPPROTO_TCP, socket.TCP_NODELAY, 1)
                events, started, closed = [], time.monotonic(), threading.Event()
                with self.alone:
                    self.connections.append(events)
                for words in ((client, server, "to server"), (server, client, "to client")):
                    threading.Thread(target=self.pump, args=(*words, events, started, closed), daemon=True).start()

    def pump(self, source, target, way, events, started, closed):
        """Keeps each packet before it goes on; what is no whole packet at the end is kept too."""
        kept = b""
        with contextlib.suppress(OSError):
            while part := source.recv(65536):
                kept += part
                while len(kept) >= 8 and len(kept) >= (size := max(8, int.from_bytes(kept[2:4], "big"))):
                    self.keep(events, started, way, kept[:size])
                    kept = kept[size:]
                target.sendall(part)
        if kept:
            self.keep(events, started, way, kept)
        if way == "to client" and not closed.is_set():
            self.keep(events, started, "closed by server", b"")
        closed.set()
        with contextlib.suppress(OSError):
            target.shutdown(socket.SHUT_WR)

    def keep(self, events, started, way, data):
        event = {"ms": round(1000 * (time.monotonic() - started), 1), "way": way,
                 "line": f"packet {data[0]:02X}" if data else "end of connection"}
        if data:
            event["hex"] = data.hex()
        with self.alone:
            events.append(event)

    def close(self):
        self.place.close()

    def recording(self, name, asks):
        """What was recorded until now, as one probe."""
        with self.alone:
            connections = [list(events) for events in self.connections]
        return {
            "format": "tdsprobe recording", "version": 1,
            "begun": datetime.datetime.now(datetime.timezone.utc).isoformat(timespec="seconds"),
            "server": {"is": "tdsserve, by a relay of the tests", "calls_itself": "'tdsserve'",
                       "evidence": "none: it imitates a SQL Server"},
            "login": {"encryption": "none", "packet_size": 4096},
            "probes": [{"name": name, "asks": asks, "ended": "as it did", "connections": connections}],
        }

    def write(self, path, name, asks):
        with open(path, "w", encoding="utf-8") as it:
            json.dump(self.recording(name, asks), it)
            it.write("\n")
