"""What goes out on a connection, in the order of the calls that gave it."""

import threading
from typing import Callable, List, Optional


class Outgoing:
    """What goes out on one connection: filled in calls under a lock, and written by one thread at a time, in the order of the calls.

        outgoing = Outgoing(sock.sendall)
        with outgoing:                              # nobody else calls the client meanwhile
            client.start_batch("rows 7 2")
            outgoing.put(client.send_all())         # written behind the block, by this thread or by the one that writes already

    So a cancel never overtakes its request, and none waits behind a write that stalls: whoever writes then writes its bytes too.
    Of a table the connections share one lock, since they share its calls: `Outgoing(sock.sendall, lock)`. The blocks of one lock
    aren't put into one another."""

    def __init__(self, write: Callable[[bytes], object], lock: Optional[threading.Lock] = None) -> None:
        """`write` writes all the bytes that it is handed, as `sendall` of a socket, or `write` of an asyncio writer."""
        self._write, self.lock = write, lock or threading.Lock()
        self._waiting: List[bytes] = []
        self._is_writing, self._holder = False, 0
        self._failed: Optional[BaseException] = None

    def __enter__(self) -> "Outgoing":
        self.lock.acquire()
        self._holder = threading.get_ident()
        return self

    def put(self, data: bytes) -> None:
        """Inside of its block: puts bytes behind those that wait."""
        if self._holder != threading.get_ident():
            raise RuntimeError("bytes are put inside of the block of the call that gave them")
        if data:
            self._waiting.append(data)

    def __exit__(self, kind: Optional[type], *_: object) -> None:
        self._holder, waiting = 0, self._waiting
        # Whoever writes is chosen before somebody else can put anything.
        writes = bool(waiting) and not (self._is_writing or self._failed)
        if writes:
            self._waiting, self._is_writing = [], True
        self.lock.release()
        if writes:
            self._drain(waiting)
        elif self._failed and kind is None:
            raise self._failed

    def _drain(self, waiting: List[bytes]) -> None:
        while waiting:
            try:
                self._write(waiting[0] if len(waiting) == 1 else b"".join(waiting))
            except BaseException as why:
                with self.lock:
                    self._failed, self._waiting, self._is_writing = why, [], False
                raise
            with self.lock:
                waiting, self._waiting = [] if self._failed else self._waiting, []
                self._is_writing = bool(waiting)
        if self._failed:
            raise self._failed
