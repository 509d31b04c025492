"""A bulk load (MS-TDS 2.2.6.1): the statement that begins it, and its columns and rows, spelled by python-tds."""

import csv
import struct
from typing import Any, Iterable, Iterator, List, Optional, Sequence, Tuple

from . import errors
from .spelling import Column, Spelling, text_column

_COLUMNS, _ROW = b"\x81", b"\xD1"
# A DONE (2.2.7.6) that says nothing.
_END = b"\xFD" + bytes(12)
_OPTIONS = {"check_constraints": "CHECK_CONSTRAINTS", "fire_triggers": "FIRE_TRIGGERS", "keep_nulls": "KEEP_NULLS", "tablock": "TABLOCK",
            "kb_per_batch": "KILOBYTES_PER_BATCH = {}", "rows_per_batch": "ROWS_PER_BATCH = {}", "order": "ORDER({})"}


def quoted(name: str) -> str:
    """A name in brackets."""
    return "[" + name.replace("]", "]]") + "]"


def rows_of(file: Any, sep: str, null_string: Optional[str]) -> Iterator[List[Optional[str]]]:
    """The rows of a text with separators; a value that is `null_string` is none."""
    for row in csv.reader(file, delimiter=sep):
        yield [None if it == null_string and null_string is not None else it for it in row]


def columns_of(given: Sequence[Any]) -> List[Column]:
    """The columns of a load: a name alone is one of nvarchar(4000)."""
    return [text_column(it) if isinstance(it, str) else it for it in given]


def statement(table: str, columns: Sequence[Column], options: Any) -> str:
    """What a server is asked before the rows are sent."""
    unknown = [it for it in options if it not in _OPTIONS]
    if unknown:
        raise errors.NotSupportedError(f"a bulk load has no option {unknown[0]}")
    named = {name: ",".join(value) if name == "order" and not isinstance(value, str) else value for name, value in options.items()}
    told = ",".join(_OPTIONS[name].format(value) for name, value in named.items() if value)
    declared = ",".join(f"{quoted(it.column_name)} {it.type.get_declaration()}" for it in columns)
    return f"INSERT BULK {table}({declared})" + (f" WITH ({told})" if told else "")


def body(spelling: Spelling, columns: Sequence[Column], rows: Iterable[Sequence[Any]]) -> Tuple[bytes, int]:
    """The message of a load, whole, and how many rows it has. DataError where a value can't be spelled: nothing went out then."""
    into = spelling.body()
    into.write(_COLUMNS + struct.pack("<H", len(columns)))
    writers = []
    for it in columns:
        serializer = spelling.serializer(it)
        into.write(struct.pack("<IHB", it.column_usertype, it.flags, serializer.type))
        serializer.write_info(into)
        into.write_b_varchar(it.column_name)
        writers.append(serializer)
    count = 0
    for count, row in enumerate(rows, 1):
        into.write(_ROW)
        values = list(row)
        if len(values) != len(writers):
            raise errors.DataError(f"row {count} has {len(values)} values, and there are {len(writers)} columns")
        for serializer, value in zip(writers, values):
            spelling.spelled(serializer, value, into)
    into.write(_END)
    return bytes(into.body), count
