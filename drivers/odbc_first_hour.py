"""What ODBC's users send first, by FreeTDS's driver: odbc_first_hour.py PORT PACED_PORT."""
import ctypes
import sys

from odbc import HANDLE, ODBC, OF_CONNECTION, OF_STATEMENT, ask, connect, end, handle, told, value

SQL_INTEGER, SQL_C_SLONG, SQL_PARAM_INPUT = 4, -16, 1
ISOLATION, SERIALIZABLE = 108, 8


def outcome(result, kind, of):
    return (result, told(kind, of)) if result not in (0, 1) else result


def prepared(connection, text, *numbers):
    """Prints what a prepared text with these parameters is answered with."""
    statement = handle(OF_STATEMENT, connection)
    result = ODBC.SQLPrepare(statement, text.encode(), len(text))
    kept = [ctypes.c_int(number) for number in numbers]
    for place, number in enumerate(kept):
        ODBC.SQLBindParameter(statement, ctypes.c_ushort(place + 1), ctypes.c_short(SQL_PARAM_INPUT),
                              ctypes.c_short(SQL_C_SLONG), ctypes.c_short(SQL_INTEGER),
                              ctypes.c_ulong(0), ctypes.c_short(0), ctypes.byref(number),
                              ctypes.c_long(0), None)
    for turn in range(2):
        result = ODBC.SQLExecute(statement)
        rows = []
        while result in (0, 1) and ODBC.SQLFetch(statement) in (0, 1):
            rows.append(value(statement))
        print("prepared", text, numbers, "->", outcome(result, OF_STATEMENT, statement), rows)
        ODBC.SQLFreeStmt(statement, ctypes.c_ushort(0))
    ODBC.SQLFreeHandle(ctypes.c_short(3), statement)


def catalogue(connection):
    """A catalogue's procedure isn't there, and the connection is alive behind it."""
    statement = handle(OF_STATEMENT, connection)
    result = ODBC.SQLTables(statement, None, ctypes.c_short(0), None, ctypes.c_short(0), None,
                            ctypes.c_short(0), None, ctypes.c_short(0))
    print("tables", outcome(result, OF_STATEMENT, statement))
    ODBC.SQLFreeHandle(ctypes.c_short(3), statement)


def main():
    one = connect(sys.argv[1], more="Database=other;")
    ask(one, "select 1")
    prepared(one, "rows 7 1")
    prepared(one, "rows ? 2", 5)
    ask(one, "{call sp_who}")
    catalogue(one)
    result = ODBC.SQLSetConnectAttr(one, ISOLATION, HANDLE(SERIALIZABLE), 0)
    print("isolation", outcome(result, OF_CONNECTION, one))
    print("autocommit off", ODBC.SQLSetConnectAttr(one, 102, HANDLE(0), -5))
    ask(one, "select @@trancount")
    end(one, "commit", 0)
    ask(one, "rows 3 1")


main()
