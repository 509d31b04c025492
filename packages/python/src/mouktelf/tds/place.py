"""Where a cursor stands in an answer. Threads and asyncio have the same; who waits is theirs."""

from typing import Any, List, Optional, Tuple, Type

from . import errors
from .answer import Answer, ResultSet
from .rows import Columns, Row, columns_of, readable, returned
from .spelling import Spelling, output


# Where there is none: it has no rows, no count and no error, and nothing is put into it. Nor into the answer that nobody asked.
_NO_SET, _NO_ANSWER = ResultSet(), Answer()


class Place:
    """What PEP 249 has of a cursor besides its calls that wait."""

    arraysize = 1

    def __init__(self, spelling: Spelling) -> None:
        self._spelling = spelling
        self._answer, self._set, self._columns = _NO_ANSWER, _NO_SET, None  # type: Answer, ResultSet, Optional[Columns]
        self._count: Optional[int] = None
        self._is_closed = False

    @property
    def description(self) -> Optional[Tuple[Row, ...]]:
        """For each column its name, the code of its type, None, size, precision, scale, and whether it may be null. None: no rows."""
        return self._columns.description if self._columns else None

    @property
    def rowcount(self) -> int:
        """How many rows the server says that the statement gave or changed; -1 where it hasn't said yet, or doesn't."""
        return self._set.count if self._count is None else self._count

    @property
    def messages(self) -> List[Tuple[Type[Exception], Exception]]:
        """What the server told besides, since the last request: kind and exception of each ERROR and INFO."""
        found = [errors.exception_of(it) for it in self._answer.messages]
        return [(type(it), it) for it in found]

    def setinputsizes(self, sizes: Any = None) -> None:
        """Does nothing, as PEP 249 allows."""

    def setoutputsize(self, size: Any = None, column: Any = None) -> None:
        """Does nothing, as PEP 249 allows."""

    def _restart(self) -> Answer:
        """A new answer in the place of the one before, which nobody reads any more."""
        if self._is_closed:
            raise errors.InterfaceError("the cursor is closed")
        before = self._answer
        if before.sets or not before.is_ended:
            before.drop()
        answer = self._answer = Answer()
        self._set, self._columns, self._count = _NO_SET, None, None
        return answer

    def _enter(self) -> Optional[bool]:
        """Goes on to the next set that the answer has. Raises its error, where it is nothing else."""
        answer = self._answer
        self._columns = None
        if not answer.sets:
            self._set = _NO_SET
            return None
        found = self._set = answer.sets.popleft()
        if found.columns:
            self._columns = columns_of(found.columns)
        else:
            self._raise_error()
        return True

    def _raise_error(self) -> None:
        error, self._set.error = self._set.error, None
        if error:
            raise error

    def _rows(self) -> ResultSet:
        """The set whose rows are read."""
        if self._answer.failure:
            raise self._answer.failure()
        if not self._columns:
            raise errors.ProgrammingError("the last request has given no rows")
        return self._set

    def _taken(self, most: Optional[int] = None) -> List[Row]:
        """The rows that are here, at most so many."""
        rows = self._set.rows
        count = len(rows)
        if most is None or most >= count:
            taken = [*rows]
            rows.clear()
        else:
            taken = [rows.popleft() for _ in range(most)]
        return self._columns.read_all(taken)  # type: ignore[union-attr]

    def _with_outputs(self, parameters: Any) -> Any:
        """A copy of a call's parameters, with what came of those that are outputs."""
        is_mapping = hasattr(parameters, "items")
        names = list(parameters) if is_mapping else range(len(parameters))
        found = {name: parameters[name] for name in names}
        for name in names:
            if isinstance(found[name], output):
                found[name] = found[name].value
        for place, value in (readable(returned, it) for it in self._answer.outputs):
            if place < len(names):
                found[names[place]] = value
        return found if is_mapping else list(found.values())
