"""What the calls of each request read and write: made once, and handed to them by its address, which takes the least time."""

import threading
from ctypes import addressof, c_size_t, c_uint8

_HEADER = 8


class Sending:
    """For what goes out in packets of one `size`: bytes that wait until a packet is full, at most `most` of them; a packet; counts."""

    __slots__ = ("size", "most", "waiting", "taken", "_count", "_kept", "_packet", "_view", "kept_at", "packet_at", "waiting_at",
                 "taken_at", "count_at")

    def __init__(self, size: int) -> None:
        packet = bytearray(size)
        self.size, self.most, self._view = size, size - _HEADER, memoryview(packet)
        self._kept, self._packet = (c_uint8 * self.most)(), (c_uint8 * size).from_buffer(packet)
        self.waiting, self.taken, self._count = c_size_t(), c_size_t(), c_size_t()
        self.kept_at, self.packet_at = addressof(self._kept), addressof(self._packet)
        self.waiting_at, self.taken_at, self.count_at = map(addressof, (self.waiting, self.taken, self._count))

    def written(self) -> bytes:
        """What a call has written of a packet."""
        return self._view[:self._count.value].tobytes()

    def clear(self) -> None:
        """Nothing is written, unless a call does."""
        self._count.value = 0


class Telling:
    """For what is told: room for so many bytes of tokens, and counts."""

    __slots__ = ("taken", "count", "view", "_tokens", "tokens_at", "taken_at", "count_at")

    def __init__(self, room: int) -> None:
        tokens = bytearray(room)
        self.taken, self.count, self.view = c_size_t(), c_size_t(), memoryview(tokens)
        self._tokens = (c_uint8 * room).from_buffer(tokens)
        self.tokens_at, self.taken_at, self.count_at = map(addressof, (self._tokens, self.taken, self.count))


class Own(threading.local):
    """Room that each thread has for itself, since ctypes lets others run in the middle of a call."""

    def __init__(self, room: int) -> None:
        self.room = Telling(room)
