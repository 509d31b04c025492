"""The library, its structs and its calls as mouktelf.h declares them."""

import ctypes
import pathlib
from ctypes import POINTER, Structure, c_char_p, c_int32, c_size_t, c_uint8, c_uint16, c_uint32, c_uint64, c_void_p

VERSION = "0.1.0"
_FOLDER = pathlib.Path(__file__).parent


class Packet(Structure):
    _fields_ = [("length", c_size_t), ("kind", c_uint8), ("status", c_uint8)]


class ClientValue(Structure):
    _fields_ = [
        ("descriptor", c_uint64), ("sent", c_size_t), ("packets", c_size_t), ("size", c_uint16), ("stage", c_uint8),
        ("kind", c_uint8), ("fault", c_uint8), ("token_fault", c_uint8), ("mark", c_uint8), ("done", c_uint8),
        ("columns", c_uint8),
    ]


class Cursor(Structure):
    _fields_ = [("at", c_size_t), ("columns", c_uint8)]


class TokenValue(Structure):
    _fields_ = [
        ("value", c_uint64), ("start", c_size_t), ("number", c_int32), ("line", c_int32), ("status", c_uint16),
        ("cur_cmd", c_uint16), ("kind", c_uint8), ("state", c_uint8), ("severity", c_uint8), ("change", c_uint8),
    ]


class WireColumn(Structure):
    _fields_ = [("form", c_uint8), ("bytes", c_uint8)]


class WireMemory(Structure):
    _fields_ = [("columns", WireColumn * 4096), ("nulls", c_uint8 * 512), ("count", c_uint16)]


class WireDue(Structure):
    _fields_ = [
        ("left", c_uint64), ("value", c_uint32), ("change", c_uint16), ("due", c_uint8), ("bytes", c_uint8),
        ("field", c_uint8), ("next", c_uint8), ("fault", c_uint8),
    ]


class WireInside(Structure):
    _fields_ = [("column", c_uint16), ("inside", c_uint8), ("base", WireColumn)]


class WireRefusal(Structure):
    _fields_ = [("at", c_uint64), ("fault", c_uint8), ("byte", c_uint8)]


class WireWalk(Structure):
    _fields_ = [
        ("due", WireDue), ("refused", WireRefusal), ("start", c_uint64), ("passed", c_uint64), ("most", c_uint16),
        ("entries", c_uint16), ("inside", WireInside), ("shape", WireColumn), ("kind", c_uint8), ("parts", c_uint8),
        ("ciphered", c_uint8), ("encryption", c_uint8), ("ranks", c_uint8), ("head", c_uint8 * 24), ("head_count", c_uint8),
    ]


class WirePlace(Structure):
    _fields_ = [("start", c_uint64), ("length", c_uint64)]


class WireToken(Structure):
    _fields_ = [
        ("start", c_uint64), ("length", c_uint64), ("value", c_uint64), ("old_value", c_uint64), ("text", WirePlace),
        ("others", WirePlace), ("number", c_int32), ("size", c_uint32), ("status", c_uint16), ("command", c_uint16),
        ("kind", c_uint8), ("told", c_uint8), ("change", c_uint8), ("state", c_uint8), ("severity", c_uint8),
        ("recoverable", c_uint8),
    ]


class ColumnValue(Structure):
    _fields_ = [
        ("name", WirePlace), ("size", c_uint32), ("user_type", c_uint32), ("flags", c_uint16), ("kind", c_uint8),
        ("precision", c_uint8), ("scale", c_uint8), ("collation", c_uint8 * 5), ("shape", WireColumn),
    ]


class PartsValue(Structure):
    _fields_ = [
        ("left", c_uint32), ("stage", c_uint8), ("seen", c_uint8), ("first", c_uint8), ("second", c_uint8), ("third", c_uint8),
    ]


class SeatValue(Structure):
    _fields_ = [
        ("client", ClientValue), ("number", c_uint64), ("holder", c_uint64), ("asked", c_uint64), ("place", c_uint8),
    ]


class ServiceValue(Structure):
    _fields_ = [("last", c_uint64), ("given", c_uint64), ("count", c_size_t), ("size", c_uint16)]


class LentValue(Structure):
    _fields_ = [("lease", c_uint64), ("number", c_uint64), ("had", c_uint8)]


class AskedValue(Structure):
    _fields_ = [("number", c_uint64), ("request", c_uint64)]


class WhoseValue(Structure):
    _fields_ = [("lease", c_uint64), ("request", c_uint64)]


class JudgeLimits(Structure):
    _fields_ = [("idle", c_uint64), ("columns", c_uint16), ("encryption", c_uint8), ("ranks", c_uint8)]


class JudgePiece(Structure):
    _fields_ = [("time", c_uint64), ("length", c_size_t), ("what", c_uint8)]


class JudgeFinding(Structure):
    _fields_ = [
        ("offset", c_uint64), ("time", c_uint64), ("value", c_uint64), ("number", c_uint8), ("level", c_uint8),
        ("direction", c_uint8),
    ]


_CLIENT, _COUNT, _BYTES = POINTER(ClientValue), POINTER(c_size_t), c_char_p
_ROOM, _WALK, _MEMORY = POINTER(c_uint8), POINTER(WireWalk), POINTER(WireMemory)
# What the calls of each request read and write is handed to them by its address: that takes the least time.
_AT, _NUMBER, _LENT, _TABLE = c_void_p, POINTER(c_uint64), POINTER(LentValue), (c_void_p, c_void_p, c_size_t)
_CALLS = {
    "tds_packets_read": (_BYTES, c_size_t, c_uint16, c_uint8, _AT, c_size_t, _AT),
    "tds_client_new": (c_uint16, _CLIENT),
    "tds_client_mark_reset": (_CLIENT, c_uint8),
    "tds_client_start_batch": (_CLIENT, POINTER(c_uint16), c_size_t, POINTER(c_uint8), c_size_t, _COUNT),
    "tds_client_start_begin": (_CLIENT, c_uint8, POINTER(c_uint8), c_size_t, _COUNT),
    "tds_client_start_commit": (_CLIENT, c_uint8, POINTER(c_uint8), c_size_t, _COUNT),
    "tds_client_start_rollback": (_CLIENT, c_uint8, POINTER(c_uint8), c_size_t, _COUNT),
    "tds_client_send": (_AT, _BYTES, c_size_t, _AT, c_size_t, _AT),
    "tds_client_cancel": (_AT, _AT, c_size_t, _AT),
    "tds_client_take": (_CLIENT, _BYTES, c_size_t),
    "tds_client_start_message": (_AT, c_uint8, _AT, c_size_t, _AT),
    "tds_client_put": (_AT, _AT, c_size_t, _AT, _BYTES, c_size_t, _AT, _AT, c_size_t, _AT),
    "tds_client_ask": (_AT, c_uint8, _BYTES, c_size_t, _AT, c_size_t, _AT),
    "tds_client_finish": (_AT, _AT, c_size_t, _AT, c_size_t, _AT),
    "tds_client_heard_change": (_CLIENT, c_uint8, c_uint64),
    "tds_client_heard_done": (_CLIENT, c_uint8, c_uint16),
    "tds_client_heard_other": (_CLIENT,),
    "tds_client_message_ended": (_CLIENT,),
    "tds_client_lost": (_CLIENT,),
    "tds_wire_new": (c_uint16, c_uint8, c_uint8, _WALK, _MEMORY),
    "tds_wire_next": (_AT, _AT, _BYTES, c_size_t, _AT, _AT),
    "tds_wire_is_between": (_WALK, _MEMORY),
    "tds_wire_restart": (_WALK, _MEMORY),
    "tds_client_hear": (_AT, _AT, _AT, _BYTES, c_size_t, c_uint8, _AT, _AT, c_size_t, _AT),
    "tds_tokens_next": (_BYTES, c_size_t, POINTER(Cursor), POINTER(TokenValue), c_size_t, _COUNT),
    "tds_columns": (_BYTES, c_size_t, c_uint8, POINTER(ColumnValue), c_size_t, _COUNT, _COUNT),
    "tds_row_places": (POINTER(ColumnValue), c_size_t, _BYTES, c_size_t, _ROOM, c_size_t, _COUNT),
    "tds_places_of_rows": (POINTER(ColumnValue), c_size_t, _BYTES, c_size_t, _ROOM, c_size_t, _COUNT, _COUNT),
    "tds_row_values": (
        POINTER(ColumnValue), c_size_t, c_size_t, _BYTES, c_size_t, _BYTES, c_size_t, _ROOM, c_size_t, _COUNT, _COUNT,
    ),
    "tds_parts_next": (POINTER(PartsValue), _BYTES, c_size_t, _COUNT, _COUNT, _COUNT),
    "tds_service_lease": (*_TABLE, _LENT),
    "tds_service_find": (*_TABLE, c_uint64, _AT),
    "tds_service_at": (*_TABLE, c_uint64, _AT),
    "tds_service_ask": (*_TABLE, c_uint64, c_uint8, _AT, c_size_t, _AT, _AT),
    "tds_service_put": (*_TABLE, c_uint64, _AT, c_size_t, _AT, _BYTES, c_size_t, _AT, _AT, c_size_t, _AT),
    "tds_service_finish": (*_TABLE, c_uint64, _AT, c_size_t, _AT, c_size_t, _AT),
    "tds_service_cancel": (*_TABLE, c_uint64, _ROOM, c_size_t, _COUNT),
    "tds_service_came": (*_TABLE, c_uint64, POINTER(WireToken), POINTER(WhoseValue)),
    "tds_service_hear": (*_TABLE, c_uint64, _AT, _AT, _BYTES, c_size_t, c_uint8, _AT, _AT, c_size_t, _AT, _AT),
    "tds_service_message_ended": (*_TABLE, c_uint64, c_uint8, POINTER(WhoseValue)),
    "tds_service_give_back": (*_TABLE, c_uint64, _ROOM, c_size_t, _COUNT, _NUMBER),
    "tds_service_drained": (*_TABLE, c_uint64),
    "tds_service_lost": (*_TABLE, c_uint64),
    "tds_service_keep": (*_TABLE, c_uint64, _NUMBER),
    "tds_service_resume": (*_TABLE, c_uint64, _LENT),
    "tds_service_abandon": (*_TABLE, c_uint64, _NUMBER),
    "tds_service_clean": (*_TABLE, c_uint64, _LENT),
    "tds_service_cleaned": (*_TABLE, c_uint64, _NUMBER),
    "tds_judge": (
        POINTER(JudgeLimits), POINTER(JudgePiece), c_size_t, _BYTES, c_size_t, POINTER(JudgeFinding), c_size_t, _COUNT,
    ),
    "tds_play": (_BYTES, c_size_t, POINTER(c_uint8), c_size_t, _COUNT),
}
_SLOW = ("tds_judge", "tds_play")


def _load() -> ctypes.CDLL:
    library = next(_FOLDER.glob("libmouktelf.so.*"), None)
    if library is None:
        raise ImportError(f"no library lies in {_FOLDER}: pip install {_FOLDER.parent.parent} compiles one and installs the package")
    # A call of a request takes microseconds: no thread is waited for behind it. What judges and plays lets others run meanwhile.
    found, slow = ctypes.PyDLL(str(library)), ctypes.CDLL(str(library))
    found.mouktelf_version.restype = c_uint32
    found.mouktelf_version.argtypes = ()
    major, minor, patch = map(int, VERSION.split("."))
    if found.mouktelf_version() != 10_000 * major + 100 * minor + patch:
        raise ImportError(f"the library beside this package is {found.mouktelf_version()}, and {VERSION} is wanted")
    for name, arguments in _CALLS.items():
        # The player is in a release's library alone.
        if name == "tds_play" and not hasattr(found, name):
            continue
        if name in _SLOW:
            setattr(found, name, getattr(slow, name))
        call = getattr(found, name)
        # Without it ctypes reads the three bytes above, too.
        call.restype = c_uint8
        call.argtypes = arguments
    return found


LIBRARY = _load()
