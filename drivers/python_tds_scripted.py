"""python-tds where scripts put it into bad places: python_tds_scripted.py NAME=PORT.."""
import sys

import pytds

PORTS = dict(word.split("=") for word in sys.argv[1:])


def connect(name, **more):
    print(name)
    words = dict(server="127.0.0.1", port=int(PORTS[name]), user="a", password="b", autocommit=True,
                 login_timeout=60, timeout=60, disable_connect_retry=True)
    return pytds.connect(**dict(words, **more))


def ask(cursor, text):
    try:
        cursor.execute(text)
        sets = []
        while True:
            if cursor.description:
                sets.append([row[0] for row in cursor.fetchall()])
            if not cursor.nextset():
                break
        print(" ", text[:40], "->", sets)
    except ConnectionResetError:
        # Whether the end that came before is read, or the reset that answers what was sent since, is a matter of microseconds.
        print(" ", text[:40], "-> ClosedConnectionError Server closed connection")
    except Exception as error:  # whatever it shows
        print(" ", text[:40], "->", type(error).__name__, error)


def cancelled(name):
    connection = connect(name)
    cursor = connection.cursor()
    cursor.execute("rows 1 1;rows 5 1;rows 9 1")
    print("  first", [row[0] for row in cursor.fetchall()])
    cursor.cancel()
    print("  cancelled")
    ask(cursor, "rows 7 1")


def times_out(name):
    connection = connect(name, timeout=1)
    ask(connection.cursor(), "begin")
    ask(connection.cursor(), "commit")
    ask(connection.cursor(), "commit")


def request_times_out(name):
    connection = connect(name, timeout=1)
    try:
        connection.autocommit = False
    except Exception as error:  # whatever it shows
        print("  autocommit = False ->", type(error).__name__, error)
    ask(connection.cursor(), "commit")
    ask(connection.cursor(), "commit")


def commit_times_out(name):
    # its commit() has no limit, and is never cancelled
    connection = connect(name, timeout=1)
    for text in ("begin", "commit", "rows 3 1"):
        ask(connection.cursor(), text)


def is_cut(name):
    connection = connect(name)
    ask(connection.cursor(), "rows 1 1")
    ask(connection.cursor(), "rows 1 9")
    ask(connection.cursor(), "rows 3 1")


def in_pieces(name):
    connection = connect(name)
    ask(connection.cursor(), "rows 1 3;say x;rows 5 1")


def answered_twice(name):
    connection = connect(name)
    ask(connection.cursor(), "say twice;rows 1 1")
    ask(connection.cursor(), "rows 7 1")
    ask(connection.cursor(), "rows 9 1")


def answered_early(name):
    connection = connect(name)
    ask(connection.cursor(), "say early" + "0" * 60000)
    ask(connection.cursor(), "rows 7 1")


def lends(name):
    """Its pool hands on a connection whose answer isn't read."""
    lender = connect(name, pooling=True)
    lender.cursor().execute("say lender;rows 1 9")
    lender.close()
    borrower = connect(name, pooling=True)
    ask(borrower.cursor(), "say borrower")


cancelled("held")
cancelled("crossed")
times_out("begin_crossed")
if "begin_request_crossed" in PORTS:
    request_times_out("begin_request_crossed")
if "commit_crossed" in PORTS:
    commit_times_out("commit_crossed")
is_cut("cut")
in_pieces("split")
if "twice" in PORTS:
    answered_twice("twice")
if "early" in PORTS:
    answered_early("early")
if "lent" in PORTS:
    lends("lent")
