"""The DB-API module of packages/python where scripts put it into bad places: mouktelf_tds_scripted.py NAME=PORT.."""
import sys
import time

from mouktelf import tds

PORTS = dict(word.split("=") for word in sys.argv[1:])
HOW = dict(user="a", password="b", login_timeout=60, timeout=60)


def connect(name, **more):
    print(name)
    return tds.connect("127.0.0.1", port=int(PORTS[name]), **dict(HOW, **dict(dict(autocommit=True), **more)))


def ask(cursor, text):
    try:
        cursor.execute(text)
        sets = []
        while True:
            if cursor.description:
                sets.append([row[0] for row in cursor.fetchall()])
            if not cursor.nextset():
                break
        print(" ", text, "->", sets)
    except tds.Error as error:
        print(" ", text, "->", type(error).__name__, error)


def cancelled(name):
    connection = connect(name)
    cursor = connection.cursor()
    cursor.execute("rows 1 1;rows 5 1;rows 9 1")
    print("  first", [row[0] for row in cursor.fetchall()])
    cursor.cancel()
    print("  cancelled")
    try:
        cursor.nextset()
    except tds.Error as error:
        print("  nextset ->", type(error).__name__, error)
    ask(cursor, "rows 7 1")


def times_out(name):
    """A begin is cancelled by its limit, and crosses the cancel: the caller is told that it failed, so it is no more."""
    connection = connect(name)
    connection.timeout = 1
    ask(connection.cursor(), "begin")
    print("  in a transaction", connection.in_transaction)
    ask(connection.cursor(), "commit")
    ask(connection.cursor(), "commit")


def request_times_out(name):
    """The same of the begin that stands before a first statement."""
    connection = connect(name)
    connection.timeout, connection.autocommit = 1, False
    ask(connection.cursor(), "rows 1 1")
    print("  in a transaction", connection.in_transaction)
    connection.autocommit = True
    ask(connection.cursor(), "commit")


def commit_times_out(name):
    """A commit is cancelled by its limit, and crosses the cancel: it is done, and what is asked next stands in no transaction."""
    connection = connect(name, autocommit=False)
    ask(connection.cursor(), "rows 1 1")
    connection.timeout = 1
    try:
        connection.commit()
    except tds.Error as error:
        print("  commit() ->", type(error).__name__, error)
    print("  in a transaction", connection.in_transaction)
    connection.autocommit = True
    ask(connection.cursor(), "rows 3 1")


def hands_over(name):
    """The same in a pool of one connection: the next who is lent it commits nobody's work."""
    print(name, "in a pool")
    with tds.Pool("127.0.0.1", port=int(PORTS[name]), most=1, autocommit=True, **dict(HOW, timeout=1)) as pool:
        with pool.connection() as connection:
            ask(connection.cursor(), "begin")
        with pool.connection() as connection:
            ask(connection.cursor(), "commit")
        print(" ", pool.statistics().opened, "connection,", pool.statistics().lost, "lost")


def hands_on(name):
    """Who has a connection first leaves another database and a transaction; the cancel of the next one's first request comes before
    the reset is done, so what it asks then asks for that again."""
    print(name, "in a pool")
    with tds.Pool("127.0.0.1", port=int(PORTS[name]), most=1, autocommit=True, **dict(HOW, timeout=1)) as pool:
        with pool.connection() as connection:
            ask(connection.cursor(), "use other;begin")
        with pool.connection() as connection:
            for text in ("say borrower", "select db_name()", "commit"):
                ask(connection.cursor(), text)
        print(" ", pool.statistics().opened, "connection,", pool.statistics().lost, "lost")


def is_cut(name):
    """A session that is gone isn't opened anew by itself; a pool opens another one."""
    connection = connect(name)
    ask(connection.cursor(), "rows 1 1")
    ask(connection.cursor(), "rows 1 9")
    ask(connection.cursor(), "rows 3 1")
    with tds.Pool("127.0.0.1", port=int(PORTS[name]), most=1, autocommit=True, **HOW) as pool:
        for text in ("rows 1 9", "rows 3 1"):
            with pool.connection() as connection:
                ask(connection.cursor(), text)
            # what ended is seen to have ended
            time.sleep(0.3)


def in_pieces(name):
    connection = connect(name)
    ask(connection.cursor(), "rows 1 3;say x;rows 5 1")


cancelled("held")
cancelled("crossed")
times_out("begin_crossed")
hands_over("begin_crossed")
request_times_out("begin_request_crossed")
if "commit_crossed" in PORTS:
    commit_times_out("commit_crossed")
if "reset_held" in PORTS:
    hands_on("reset_held")
is_cut("cut")
in_pieces("split")
