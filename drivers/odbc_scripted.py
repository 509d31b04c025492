"""FreeTDS's ODBC driver where scripts put it into bad places: odbc_scripted.py NAME=PORT.."""
import ctypes
import sys

from odbc import DRIVER, ENVIRONMENT, HANDLE, ODBC, OF_CONNECTION, OF_STATEMENT, handle, told, value

PORTS = dict(word.split("=") for word in sys.argv[1:])
QUERY_TIMEOUT = 0


def connect(name):
    print(name)
    made = handle(OF_CONNECTION, ENVIRONMENT)
    words = f"Driver={DRIVER};Server=127.0.0.1;Port={PORTS[name]};UID=a;PWD=b;TDS_Version=7.4;".encode()
    ODBC.SQLDriverConnect(made, None, words, ctypes.c_short(len(words)), None, ctypes.c_short(0), None,
                          ctypes.c_ushort(0))
    return made


def ask(connection, text, patience=5):
    statement = handle(OF_STATEMENT, connection)
    ODBC.SQLSetStmtAttr(statement, QUERY_TIMEOUT, HANDLE(patience), 0)
    result = ODBC.SQLExecDirect(statement, text.encode(), len(text))
    sets = []
    while result in (0, 1):
        rows = []
        while ODBC.SQLFetch(statement) in (0, 1):
            rows.append(value(statement))
        sets.append(rows)
        result = ODBC.SQLMoreResults(statement)
    print(" ", text[:40], "->", result, sets, told(OF_STATEMENT, statement) if result < 0 else "")
    ODBC.SQLFreeHandle(ctypes.c_short(3), statement)


def cancelled(name):
    connection = connect(name)
    statement = handle(OF_STATEMENT, connection)
    text = b"rows 1 1;rows 5 1;rows 9 1"
    print("  asks", ODBC.SQLExecDirect(statement, text, len(text)), ODBC.SQLFetch(statement), value(statement))
    print("  cancel", ODBC.SQLCancel(statement))
    ODBC.SQLFreeHandle(ctypes.c_short(3), statement)
    ask(connection, "rows 7 1")


def times_out(name):
    connection = connect(name)
    ask(connection, "begin", 1)
    ask(connection, "commit")
    ask(connection, "commit")


def is_cut(name):
    connection = connect(name)
    for text in ("rows 1 1", "rows 1 9", "rows 3 1"):
        ask(connection, text)


cancelled("held")
cancelled("crossed")
times_out("begin_crossed")
is_cut("cut")
ask(connect("split"), "rows 1 3;say x;rows 5 1")
if "twice" in PORTS:
    twice = connect("twice")
    for text in ("say twice;rows 1 1", "rows 7 1", "rows 9 1"):
        ask(twice, text)
if "early" in PORTS:
    early = connect("early")
    for text in ("say early" + "0" * 60000, "rows 7 1"):
        ask(early, text)
if "lent" in PORTS:
    lender, asked = connect("lent"), b"say lender;rows 1 9"
    ODBC.SQLExecDirect(handle(OF_STATEMENT, lender), asked, len(asked))
    ODBC.SQLDisconnect(lender)
    ask(connect("lent"), "say borrower")
