"""FreeTDS's ODBC driver, by ctypes: odbc.py PORT PACED_PORT."""
import ctypes
import sys
import threading
import time

ODBC = ctypes.CDLL("libodbc.so.2")
HANDLE = ctypes.c_void_p
DRIVER = "/usr/lib/x86_64-linux-gnu/odbc/libtdsodbc.so"
OF_CONNECTION, OF_STATEMENT = 2, 3


def handle(kind, parent):
    made = HANDLE()
    ODBC.SQLAllocHandle(ctypes.c_short(kind), parent, ctypes.byref(made))
    return made


def told(kind, of):
    found = []
    for record in range(1, 6):
        state, number = ctypes.create_string_buffer(6), ctypes.c_int()
        text, length = ctypes.create_string_buffer(512), ctypes.c_short()
        if ODBC.SQLGetDiagRec(ctypes.c_short(kind), of, ctypes.c_short(record), state,
                              ctypes.byref(number), text, ctypes.c_short(512),
                              ctypes.byref(length)) not in (0, 1):
            break
        found.append((state.value.decode(), number.value, text.value.decode()))
    return found


ENVIRONMENT = handle(1, None)
ODBC.SQLSetEnvAttr(ENVIRONMENT, 200, HANDLE(3), 0)


def connect(port, version="7.4", more="", quiet=False):
    made = handle(OF_CONNECTION, ENVIRONMENT)
    words = (f"Driver={DRIVER};Server=127.0.0.1;Port={port};UID=a;PWD=b;"
             f"TDS_Version={version};{more}").encode()
    result = ODBC.SQLDriverConnect(made, None, words, ctypes.c_short(len(words)), None,
                                   ctypes.c_short(0), None, ctypes.c_ushort(0))
    if not quiet:
        print("connect", version, more, result, told(OF_CONNECTION, made) if result else "")
    return made if result in (0, 1) else None


def value(statement):
    number, length = ctypes.c_int(), ctypes.c_long()
    ODBC.SQLGetData(statement, ctypes.c_ushort(1), ctypes.c_short(4), ctypes.byref(number), 4,
                    ctypes.byref(length))
    return number.value


def ask(connection, text):
    statement = handle(OF_STATEMENT, connection)
    result = ODBC.SQLExecDirect(statement, text.encode(), len(text))
    found, rows = told(OF_STATEMENT, statement) if result else "", []
    while result in (0, 1) and ODBC.SQLFetch(statement) in (0, 1):
        rows.append(value(statement))
    print(text, "->", result, rows, found)
    ODBC.SQLFreeHandle(ctypes.c_short(3), statement)


def end(connection, name, how):
    result = ODBC.SQLEndTran(ctypes.c_short(2), connection, ctypes.c_short(how))
    print(name, result, told(OF_CONNECTION, connection) if result else "")


def cancel_in_the_middle(connection):
    statement = handle(OF_STATEMENT, connection)
    text = ";".join(f"rows {place * 10} 2" for place in range(40)).encode()
    started = time.time()
    print("asks", ODBC.SQLExecDirect(statement, text, len(text)), ODBC.SQLFetch(statement),
          value(statement))
    print("cancel", ODBC.SQLCancel(statement))
    ODBC.SQLFreeHandle(ctypes.c_short(3), statement)
    ask(connection, "rows 5 1")
    print("cancelled", "at once" if time.time() - started < 1.5 else "late")


def many(port):
    connections = [connect(port, quiet=True) for _ in range(64)]
    right, wrong = [], []

    def work(place):
        for turn in range(20):
            first = place * 100 + turn
            statement, rows = handle(OF_STATEMENT, connections[place]), []
            text = f"rows {first} 3".encode()
            result = ODBC.SQLExecDirect(statement, text, len(text))
            while result in (0, 1) and ODBC.SQLFetch(statement) in (0, 1):
                rows.append(value(statement))
            (right if rows == [first, first + 1, first + 2] else wrong).append(first)
            ODBC.SQLFreeHandle(ctypes.c_short(3), statement)

    threads = [threading.Thread(target=work, args=(place,)) for place in range(64)]
    for thread in threads:
        thread.start()
    for thread in threads:
        thread.join()
    print("64 connections,", len(right), "answers right,", len(wrong), "wrong")


def main():
    one = connect(sys.argv[1])
    for text in ("rows 7 3", "say hello", "foo", "fail 70001"):
        ask(one, text)
    print("autocommit off", ODBC.SQLSetConnectAttr(one, 102, HANDLE(0), -5))
    ask(one, "rows 1 2")
    end(one, "commit", 0)
    ask(one, "rows 2 2")
    end(one, "rollback", 1)
    ask(one, "rows 3 1")
    connect(sys.argv[1], "7.1")
    connect(sys.argv[1], more="Encryption=require;")
    cancel_in_the_middle(connect(sys.argv[2]))
    many(sys.argv[1])


if __name__ == "__main__":
    main()
