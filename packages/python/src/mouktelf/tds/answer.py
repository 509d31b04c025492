"""What one request is told, in the order in which it came. Nothing here waits: bytes go in, sets of rows come out."""

import collections
from typing import Any, Callable, Deque, List, Optional, Tuple

from ..wire import Tells, Walked
from . import errors
from .errors import Message, error_of

# A token that is told: the values of a Walked.
Told = Tuple[int, ...]
_COLUMNS, _ROW, _NULLS_ROW, _RETURNED, _ERROR = 0x81, 0xD1, 0xD2, 0xAC, 0xAA
# Where a Walked has them; the last two of a DONE.
_STARTS, _LENGTH, _KIND, _TELLS, _DONE_COUNT, _DONE_STATUS = 0, 1, 2, 3, 4, 12
_DONE, _MESSAGE, _STATUS = int(Tells.DONE), int(Tells.MESSAGE), int(Tells.RETURN_STATUS)
_FAILED, _COUNTED = 0x02, 0x10
_NO_COLUMNS = b"\x81\xff\xff"
# What most answers have of messages and the like: nothing is put into it.
_NONE: List[Any] = []


def _with(found: List[Any], one: Any) -> List[Any]:
    """These with one more: a list of the answer's own."""
    found = found or []
    found.append(one)
    return found


class ResultSet:
    """What one statement gave: its columns' token (empty where it has none) and those of its rows, the count that its end tells
    (-1 for none), and its error."""

    __slots__ = ("columns", "rows", "count", "is_whole", "is_dropped", "error")

    def __init__(self, columns: bytes = b"", is_dropped: bool = False) -> None:
        self.columns, self.is_dropped = columns, is_dropped
        self.rows: Deque[bytes] = collections.deque()
        self.count, self.is_whole = -1, False
        self.error: Optional[errors.Error] = None

    def drop(self) -> None:
        """Nobody reads its rows any more."""
        self.is_dropped = True
        self.rows.clear()


class Answer:
    """The answer of one request. `is_ended`: nothing more comes. `failure` makes the error that says why it isn't whole."""

    __slots__ = ("sets", "messages", "outputs", "return_status", "is_ended", "is_dropped", "is_cancelled", "failure", "_open", "_errors",
                 "_pieces", "_before")

    def __init__(self) -> None:
        self.sets: Deque[ResultSet] = collections.deque()
        self.messages: List[Message] = _NONE
        self.outputs: List[bytes] = _NONE
        self.return_status: Optional[int] = None
        # It begins where it is asked.
        self.is_ended, self.is_dropped, self.is_cancelled = True, False, False
        self.failure: Optional[Callable[[], errors.Error]] = None
        self._open: Optional[ResultSet] = None
        self._errors: List[Message] = _NONE
        # The message's bytes behind the token that was told last, and how many lie before them.
        self._pieces: List[bytes] = _NONE
        self._before = 0

    def hear(self, data: bytes, tokens: List[Told], ends: int) -> None:
        """Takes a packet's data, and the tokens that are told of it; `ends` says that its message does."""
        if self.is_cancelled:
            return
        if tokens:
            if self._pieces:
                data = b"".join((*self._pieces, data))
            self._take(data, tokens)
        if ends:
            self._pieces, self._before = _NONE, 0
        elif tokens:
            behind = tokens[-1][_STARTS] + tokens[-1][_LENGTH]
            rest = data[behind - self._before:]
            self._pieces, self._before = [rest] if rest else _NONE, behind
        else:
            self._pieces = _with(self._pieces, data)

    def _take(self, data: bytes, tokens: List[Told]) -> None:
        before = self._before
        for token in tokens:
            start, kind = token[_STARTS] - before, token[_KIND]
            if kind == _ROW or kind == _NULLS_ROW:
                if self._open and not self._open.is_dropped:
                    self._open.rows.append(data[start: start + token[_LENGTH]])
            elif token[_TELLS] == _DONE:
                self._statement_ended(token[_DONE_STATUS], token[_DONE_COUNT])
            elif kind == _COLUMNS:
                own = data[start: start + token[_LENGTH]]
                if not own.startswith(_NO_COLUMNS):
                    self._open = ResultSet(own, self.is_dropped)
                    self.sets.append(self._open)
            else:
                self._other(token, data[start: start + token[_LENGTH]], data)

    def _other(self, token: Told, own: bytes, data: bytes) -> None:
        tells, named = token[_TELLS], Walked(token)
        if tells == _MESSAGE:
            self._told(_message_of(named, data, self._before))
        elif tells == _STATUS:
            self.return_status = named.number
        elif named.kind == _RETURNED:
            self.outputs = _with(self.outputs, own)

    def _told(self, message: Message) -> None:
        self.messages = _with(self.messages, message)
        if message.is_error:
            self._errors = _with(self._errors, message)

    def _statement_ended(self, status: int, count: int) -> None:
        has_failed = bool(self._errors) or status & _FAILED
        if not self._open and not has_failed and not status & _COUNTED:
            return
        if not self._open:
            self.sets.append(ResultSet())
        ended, self._open = self._open or self.sets[-1], None
        ended.count, ended.is_whole = count if status & _COUNTED else -1, True
        if has_failed:
            ended.error, self._errors = error_of(self._errors), _NONE

    def drop(self) -> None:
        """Nobody reads it any more: what still comes of rows is thrown away."""
        self.is_dropped = True
        for it in (*self.sets, *filter(None, [self._open])):
            it.drop()

    def cancelled(self) -> None:
        """It is cancelled: from here on nobody is told anything of it."""
        self.is_cancelled = True
        self.fail(lambda: errors.Cancelled("the request was cancelled"))

    def fail(self, failure: Callable[[], errors.Error]) -> None:
        """It never becomes whole, and why: the first reason stays."""
        self.failure = self.failure or failure
        self.sets.clear()
        self._open, self._pieces = None, _NONE


def _text(data: bytes, at: int, count: int) -> Tuple[str, int]:
    return data[at: at + 2 * count].decode("utf-16-le", "replace"), at + 2 * count


def _message_of(token: Walked, data: bytes, before: int) -> Message:
    """An ERROR or INFO: behind its text stand the names of server and procedure, and the line (of four bytes)."""
    text, _ = _text(data, token.text.start - before, token.text.length // 2)
    at = token.others.start - before
    server, at = _text(data, at + 1, data[at])
    procedure, at = _text(data, at + 1, data[at])
    line = int.from_bytes(data[at: at + 4], "little", signed=True)
    return Message(token.number, token.state, token.severity, text, server, procedure, line, token.kind == _ERROR)
