"""A table of connections that callers share, in front of any server: who holds each one, and what becomes of it."""

from ctypes import addressof, byref, c_size_t, c_uint8, c_uint64
from enum import IntEnum
from functools import partial
from typing import Any, Dict, List, NamedTuple, Optional, Tuple

from ._library import LIBRARY, AskedValue, ClientValue, LentValue, SeatValue, ServiceValue, WhoseValue, WireToken
from ._rooms import Sending
from .client import ANSWERS, Answer, Client, MessageKind
from .fault import Fault
from .wire import Walk, Walked, from_place, hears, walked

_FULL, _TELL, _FIRST_FAULT, _OUT_OF_RANGE, _WANTS_BYTES, _NOT_NOW, _ATTENTION_MOST, _HEADER = 1, 10, 20, 23, 24, 36, 16, 8
# The calls of each lease.
_lease, _ask, _put = LIBRARY.tds_service_lease, LIBRARY.tds_service_ask, LIBRARY.tds_service_put
_finish, _give_back = LIBRARY.tds_service_finish, LIBRARY.tds_service_give_back
# Where a seat is: lent, being cleaned, kept for a ticket.
_LENT, _CLEANING, _KEPT = 1, 2, 3


class Rest(IntEnum):
    """Where a connection is that nobody holds any more: it may be lent again; it drains until its acknowledgement has
    come; or it is in the table no longer, and its socket is to be closed."""

    FREE = 1
    DRAINING = 2
    CLOSED = 3


_RESTS = (None, *Rest)


class Lent(NamedTuple):
    """A lease, and the number of its connection. Where nobody `had` that before it is to be opened and logged in."""

    lease: int
    number: int
    had: bool


class Asked(NamedTuple):
    """A request that was asked: its connection's number, and its own there: 1, 2, .."""

    number: int
    request: int


class Whose(NamedTuple):
    """Whose it is what came: the lease that holds the connection, 0 where none does, and its newest request. `is_told`
    says whether he is told of it: of a cancelled request's answer nobody is."""

    lease: int
    request: int
    is_told: bool


class Came(NamedTuple):
    """What one packet did: MORE, FINISHED or ACKNOWLEDGED, and the tokens that are told: the `request`'s, of the `lease` that holds
    the connection (0 where none does)."""

    lease: int
    request: int
    answer: Answer
    tokens: List[Any]


class Ended(NamedTuple):
    """A lease or a ticket has ended: its connection's number, where that is, and what is to be sent on it."""

    number: int
    rest: Rest
    sends: bytes = b""


class Service:
    """A table of at most so many connections, whose packets have 512 to 32,767 bytes.

    It has no lock and no socket. A call that can't be done raises Fault: 34 where there is no such lease, ticket or
    connection, 35 where none can be lent, 36 where a connection isn't so that this can be done now."""

    def __init__(self, most: int, size: int) -> None:
        if most < 0:
            raise Fault(_OUT_OF_RANGE)
        # That of a size that no client can have is refused.
        Client(size)
        self._value, self._seats = ServiceValue(0, 0, 0, size), (SeatValue * most)()
        self._at = addressof(self._value), addressof(self._seats), most
        # What calls write.
        self._whose, self._lent, self._asked, self._ended = WhoseValue(), LentValue(), AskedValue(), c_uint64()
        self._out, self._count, self._index = (c_uint8 * _ATTENTION_MOST)(), c_size_t(), c_size_t()
        self._whose_at, self._asked_at, self._index_at = map(addressof, (self._whose, self._asked, self._index))
        self._lent_ref, self._ended_ref, self._count_ref = map(byref, (self._lent, self._ended, self._count))
        # By a lease; and by a connection's number its walk, the call that hears by it, and the room for its packets.
        self._clients: Dict[int, "_Held"] = {}
        self._rooms: Dict[int, Sending] = {}
        self._walks: Dict[int, Walk] = {}
        self._hears: Dict[int, Any] = {}
        self._sending: Dict[int, Sending] = {}

    def __len__(self) -> int:
        """How many connections there are."""
        return self._value.count

    def _call(self, call, *words) -> int:
        answer = call(*self._at, *words)
        if answer >= _FIRST_FAULT:
            raise Fault(answer)
        return answer

    def _lend(self, call, *words) -> Lent:
        answer, it = call(*self._at, *words, self._lent_ref), self._lent
        if answer >= _FIRST_FAULT:
            raise Fault(answer)
        lent = Lent(it.lease, it.number, it.had == 1)
        room = self._sending.get(lent.number)
        if room is not None:
            self._rooms[lent.lease] = room
        return lent

    def _end(self, call, holder: int) -> Ended:
        return self._has_ended(holder, self._call(call, _number(holder), self._ended_ref))

    def _has_ended(self, holder: int, answer: int, sends: bytes = b"") -> Ended:
        rest, number = _RESTS[answer], self._ended.value
        self._clients.pop(holder, None)
        self._rooms.pop(holder, None)
        if rest is Rest.CLOSED:
            self._gone(number)
        return Ended(number, rest, sends)

    def _gone(self, number: int) -> None:
        for it in (self._walks, self._hears, self._sending):
            it.pop(number, None)

    def _forget(self, lease: int) -> None:
        self._clients.pop(lease, None)
        self._rooms.pop(lease, None)

    def lease(self) -> Lent:
        """Lends a free connection that is idle, and marks it for a full reset; else a new one, which is to be opened and
        logged in. Fault 35: all are in use; wait until one is free."""
        return self._lend(_lease)

    def ask(self, lease: int, kind: MessageKind) -> Asked:
        """Begins a request of a lease. Its body comes by `put`, and `finish` ends it."""
        room, asked = self._rooms.get(lease) or self._room(lease), self._asked
        # A call that is refused writes nothing.
        answer = _ask(*self._at, lease, kind, room.kept_at, room.most, room.waiting_at, self._asked_at)
        if answer >= _FIRST_FAULT:
            raise Fault(answer)
        return Asked(asked.number, asked.request)

    def ask_all(self, lease: int, kind: MessageKind, body: bytes) -> Tuple[Asked, bytes]:
        """Asks a request, whole: which one it is, and its packets."""
        asked, packets = self.ask(lease, kind), self.put(lease, body)
        return asked, packets + self.finish(lease)

    def _room(self, lease: int) -> Sending:
        """Room for the packets of a lease's connection, which hasn't been asked by this lease."""
        seat = self._seat(LIBRARY.tds_service_find, lease)
        room = self._sending.get(seat.number) or Sending(seat.client.size)
        self._rooms[lease] = self._sending[seat.number] = room
        return room

    def put(self, lease: int, data: bytes) -> bytes:
        """Puts bytes of the request's body, and gives the packets that are full."""
        room, size, packets, at = self._rooms.get(lease) or self._room(lease), len(data), [], 0  # type: Sending, int, List[bytes], int
        while True:
            front = from_place(data, at) if at else data
            answer = _put(*self._at, lease, room.kept_at, room.most, room.waiting_at, front, size - at, room.taken_at, room.packet_at,
                          room.size, room.count_at)
            if answer >= _FIRST_FAULT:
                raise Fault(answer)
            packets.append(room.written())
            at += room.taken.value
            if answer != _FULL:
                return b"".join(packets) if packets[1:] else packets[0]

    def finish(self, lease: int) -> bytes:
        """Ends the request, and gives its last packet."""
        room = self._rooms.get(lease) or self._room(lease)
        answer = _finish(*self._at, lease, room.kept_at, room.waiting, room.packet_at, room.size, room.count_at)
        if answer >= _FIRST_FAULT:
            raise Fault(answer)
        return room.written()

    def ask_batch(self, lease: int, text: str) -> Tuple[Asked, bytes]:
        """Asks a batch, whole: which request it is, and its packets."""
        return self.ask_all(lease, MessageKind.BATCH, text.encode("utf-16-le", "surrogatepass"))

    def cancel(self, lease: int) -> Tuple[Answer, bytes]:
        """Cancels what is underway. Behind ASKED send the bytes; its acknowledgement is heard by `message_ended`."""
        answer, sends = self._cancels(LIBRARY.tds_service_cancel, lease)
        return ANSWERS[answer], sends

    def _cancels(self, call, lease: int, *words) -> Tuple[int, bytes]:
        # A call may write nothing.
        self._count.value = 0
        answer = call(*self._at, _number(lease), self._out, _ATTENTION_MOST, self._count_ref, *words)
        if answer >= _FIRST_FAULT:
            raise Fault(answer)
        count = self._count.value
        return answer, bytes(self._out[:count]) if count else b""

    def hear(self, number: int, packet: bytes) -> Came:
        """Hears one packet on the connection of this number, whoever holds it, as `Client.hear`; a connection that drained is free
        behind ACKNOWLEDGED."""
        if len(packet) < _HEADER:
            raise Fault(_WANTS_BYTES)
        came = self.hear_plain(number, bytes(packet), packet[1] & 1, _HEADER)
        return came._replace(tokens=walked(came.tokens))

    def follow(self, number: int, packet: bytes) -> Came:
        """The same, where nobody wants the tokens."""
        if len(packet) < _HEADER:
            raise Fault(_WANTS_BYTES)
        return self.hear_plain(number, bytes(packet), packet[1] & 1, _HEADER, False)

    def hear_plain(self, number: int, data: bytes, ends: int, at: int = 0, tells: bool = True) -> Came:
        """The same of a packet's data from a place on, as `Client.hear_plain`."""
        call, walk = self._hears.get(number) or self._hearing(number)
        answer, told = hears(call, walk, data, at, ends, self._whose_at, tells=tells)
        whose = self._whose
        return Came(whose.lease, whose.request, ANSWERS[answer], told)

    def _hearing(self, number: int) -> Tuple[Any, Walk]:
        """The call by which a connection hears, and its walk."""
        walk = self.walk(number)
        found = self._hears[number] = partial(LIBRARY.tds_service_hear, *self._at, number), walk
        return found

    def logged_in(self, number: int, size: int, walk: Optional[Walk] = None) -> None:
        """The connection of this number, which is new, is logged in, and the login agreed on packets of this size; `walk` is the one
        that it hears by, where the login acknowledged what a `Walk` has to know. Fault 36: something was asked on it."""
        seat = self._seat(LIBRARY.tds_service_at, number)
        if seat.asked or seat.client.stage or seat.client.mark or not 0 <= size <= 0xFFFF:
            raise Fault(_NOT_NOW if 0 <= size <= 0xFFFF else _OUT_OF_RANGE)
        value = ClientValue()
        answer = LIBRARY.tds_client_new(size, byref(value))
        if answer >= _FIRST_FAULT:
            raise Fault(answer)
        seat.client = value
        self._rooms.pop(seat.holder, None)
        self._sending.pop(number, None)
        if walk is not None:
            self._walks[number] = walk
            self._hears.pop(number, None)

    def walk(self, number: int) -> Walk:
        """The walk by which the connection of this number hears."""
        self._seat(LIBRARY.tds_service_at, number)
        if number not in self._walks:
            self._walks[number] = Walk()
        return self._walks[number]

    def came(self, number: int, token: Walked) -> Whose:
        """Hears a token that a walk of your own has found on the connection of this number, in place of `hear`: whose it is, and
        whether he is told."""
        value, whose = WireToken.from_buffer_copy(token.packed), WhoseValue()
        answer = self._call(LIBRARY.tds_service_came, _number(number), byref(value), byref(whose))
        return Whose(whose.lease, whose.request, answer == _TELL)

    def message_ended(self, number: int, is_cut: bool = False) -> Tuple[Answer, Whose]:
        """Behind `came` hears that a message has ended there, with the packet whose status has bit 1; `is_cut` where the walk isn't
        between two tokens then. FINISHED: the request has its whole answer. ACKNOWLEDGED: its cancel is acknowledged, and
        a connection that drained is free. MORE: the acknowledgement is still to come."""
        whose = WhoseValue()
        answer = self._call(LIBRARY.tds_service_message_ended, _number(number), is_cut, byref(whose))
        return Answer(answer), Whose(whose.lease, whose.request, answer == Answer.FINISHED)

    def client(self, lease: int) -> Client:
        """The client of a lease's connection, for what the calls by lease don't do: to log in, say. A request that is asked by
        it isn't counted in `Whose.request`. Behind the lease's end each of its calls raises Fault 34."""
        if lease not in self._clients:
            self._seat(LIBRARY.tds_service_find, lease)
            self._clients[lease] = _Held(self, LIBRARY.tds_service_find, lease)
        return self._clients[lease]

    def connection(self, number: int) -> Client:
        """The client of the connection of this number, whoever holds it: for what comes on it."""
        self._seat(LIBRARY.tds_service_at, number)
        return _Held(self, LIBRARY.tds_service_at, number)

    def holder(self, number: int) -> int:
        """The number of the lease, or of the ticket, that holds the connection of this number; 0 where none does."""
        seat = self._seat(LIBRARY.tds_service_at, number)
        return seat.holder if seat.place in (_LENT, _CLEANING, _KEPT) else 0

    def descriptor(self, number: int) -> int:
        """That of the transaction that is open on the connection of this number, whoever holds it; 0 for none."""
        return self._seat(LIBRARY.tds_service_at, number).client.descriptor

    def _seat(self, call, key: int) -> SeatValue:
        answer = call(*self._at, _number(key), self._index_at)
        if answer >= _FIRST_FAULT:
            raise Fault(answer)
        return self._seats[self._index.value]

    def give_back(self, lease: int) -> Ended:
        """Ends a lease. What is underway is cancelled, and what `sends` has is to be sent for that."""
        return self._has_ended(lease, *self._cancels(_give_back, lease, self._ended_ref))

    def drained(self, number: int) -> Rest:
        """For a connection that drains, each time that its client has taken something: FREE once the client is idle,
        else DRAINING. Fault 36 where it doesn't drain."""
        return Rest(self._call(LIBRARY.tds_service_drained, _number(number)))

    def lost(self, number: int) -> None:
        """The connection of this number is lost: it is in the table no longer, and its lease unknown."""
        holder = self.holder(number)
        self._call(LIBRARY.tds_service_lost, _number(number))
        self._forget(holder)
        self._gone(number)

    def keep(self, lease: int) -> int:
        """Keeps a connection that is idle in a transaction, and gives a ticket for it. The lease is spent."""
        ticket = c_uint64()
        self._call(LIBRARY.tds_service_keep, _number(lease), byref(ticket))
        self._forget(lease)
        return ticket.value

    def resume(self, ticket: int) -> Lent:
        """Lends a connection that was kept, and marks it for a reset that keeps its transaction. The ticket is spent."""
        return self._lend(LIBRARY.tds_service_resume, _number(ticket))

    def abandon(self, ticket: int) -> Ended:
        """Gives a connection up that was kept. The ticket is spent."""
        return self._end(LIBRARY.tds_service_abandon, ticket)

    def clean(self, number: int) -> Lent:
        """Lends the connection of this number, if it is free and idle, to be cleaned: ask a batch that does nothing on
        it, which asks for a full reset, and call `cleaned` once it is answered."""
        return self._lend(LIBRARY.tds_service_clean, _number(number))

    def cleaned(self, lease: int) -> Ended:
        """Ends a lease of `clean`: FREE where the reset was done and no transaction is open, else CLOSED."""
        return self._end(LIBRARY.tds_service_cleaned, lease)


class _Held(Client):
    """The client of a connection in a table. Its seat may move, so it is found anew at each call."""

    def __init__(self, service: Service, call, key: int) -> None:
        self._service, self._by, self._key = service, call, key
        self._message, self._own = b"", None  # type: bytes, Optional[Sending]

    @property
    def _seat(self) -> SeatValue:
        return self._service._seat(self._by, self._key)

    @property
    def _value(self) -> ClientValue:
        return self._seat.client

    @property
    def _at(self) -> int:  # type: ignore[override]
        return addressof(self._value)

    @property
    def _room(self) -> Sending:  # type: ignore[override]
        size = self._value.size
        if self._own is None or self._own.size != size:
            self._own = Sending(size)
        return self._own

    @property
    def _hears(self) -> Any:  # type: ignore[override]
        return partial(LIBRARY.tds_client_hear, self._at)

    @property
    def walk(self) -> Walk:
        return self._service.walk(self._seat.number)


def _number(number: int) -> int:
    if not 0 <= number < 1 << 64:
        raise Fault(_OUT_OF_RANGE)
    return number
