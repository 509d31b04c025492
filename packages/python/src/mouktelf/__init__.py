"""The client's end of a connection that speaks the Tabular Data Stream (MS-TDS), a table of connections that callers share, a
judge of recorded ones, and a player of schedules.

Everything here works over the library that lies in this package, which is compiled from proved source. It does no input or
output: bytes go in, bytes and tokens come out, and the socket is the caller's. A Client has no lock: an Outgoing has.

    client, outgoing = Client(4096), Outgoing(sock.sendall)
    with outgoing:
        client.start_batch("rows 7 2")
        outgoing.put(client.send_all())
    for packet in packets: for token in client.hear(packet).tokens: ..
"""

from ._library import VERSION as __version__
from .client import Acknowledged, Answer, Client, Heard, MessageKind, Reset, Stage, packets_of
from .fault import Fault, Refused
from .judge import Finding, Level, What, judge
from .login import is_let_in, login
from .outgoing import Outgoing
from .play import NotPlayed, play
from .service import Asked, Came, Ended, Lent, Rest, Service, Whose
from .strict import Change, Columns, Done, Message, ReturnStatus, Row, StrictClient, Taken, Token
from .wire import Place, Tells, Walk, Walked

__all__ = [
    "Acknowledged", "Answer", "Asked", "Came", "Change", "Client", "Columns", "Done", "Ended", "Fault", "Finding", "Heard", "Lent",
    "Level", "Message", "MessageKind", "NotPlayed", "Outgoing", "Place", "Refused", "Reset", "Rest", "ReturnStatus", "Row", "Service",
    "Stage", "StrictClient", "Taken", "Tells", "Token", "Walk", "Walked", "What", "Whose", "is_let_in", "judge", "login", "packets_of",
    "play",
]
