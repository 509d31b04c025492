"""What python-tds and its users send first: python_tds_first_hour.py PORT PACED_PORT."""
import logging
import sys

import pytds

# it tells of an ENVCHANGE that it does not know, that of a reset
logging.disable(logging.WARNING)


def connect(**more):
    # Its pool's first reset names the transaction that was left open, and is refused: so its retries stay here.
    words = dict(server="127.0.0.1", port=int(sys.argv[1]), user="a", password="b", autocommit=True,
                 login_timeout=60, timeout=60)
    return pytds.connect(**dict(words, **more))


def ask(connection, text, *parameters):
    """Prints what a text is answered with."""
    cursor = connection.cursor()
    try:
        cursor.execute(text, parameters or None)
        sets = []
        while True:
            if cursor.description:
                sets.append([tuple(row) for row in cursor.fetchall()])
            if not cursor.nextset():
                break
        print(text[:40], parameters or "", "->", sets)
    except pytds.Error as error:
        print(text[:40], parameters or "", "->", type(error).__name__, error)


def queries():
    connection = connect()
    for text in ("select 1", "select 1 as one, N'it''s' two", "select @@trancount",
                 "begin tran; select @@trancount", "save tran there", "rollback tran there",
                 "select @@trancount", "commit transaction", "if @@trancount > 0 rollback tran",
                 "save tran nowhere", "set nocount on", "use [other]", "select db_name()",
                 "select * from sys.tables", "set language us_english set dateformat mdy; select 2"):
        ask(connection, text)
    ask(connection, "rows 1 1;" * 300 + "rows 1 1")
    ask(connection, "select 3 -- alive")


def parameters():
    connection = connect()
    ask(connection, "rows %s 2", 7)
    ask(connection, "select %s, %s", 5, "five")
    ask(connection, "set q %s", -9)
    cursor = connection.cursor()
    cursor.executemany("set q %s", [(1,), (2,)])
    print("executemany done")
    try:
        connection.cursor().callproc("sp_who")
    except pytds.Error as error:
        print("callproc ->", type(error).__name__, error)
    ask(connection, "rows 4 1")


def databases():
    connection = connect(database="master")
    ask(connection, "select db_name()")
    ask(connection, "rows 1 1")


def pools():
    """The second connection of a pool is the first one, reset."""
    first = connect(pooling=True, autocommit=True)
    ask(first, "set a 5; begin tran; use elsewhere")
    first.close()
    second = connect(pooling=True, autocommit=True)
    ask(second, "select @@trancount, db_name()")
    cursor = second.cursor()
    cursor.execute("get a")
    print("get a ->", cursor.get_proc_return_status())


def bulk():
    connection = connect()
    cursor = connection.cursor()
    columns = [pytds.Column("n", type=pytds.tds_types.IntType()),
               pytds.Column("t", type=pytds.tds_types.NVarCharType(20))]
    try:
        cursor.copy_to(data=[(1, "one"), (2, None), (3, "three")], table_or_view="t", columns=columns)
        print("bulk done")
    except pytds.Error as error:
        print("bulk ->", type(error).__name__, error)
    ask(connection, "select 4")


def others():
    connection = connect(autocommit=False)
    connection.isolation_level = 4
    ask(connection, "select @@trancount")
    connection.commit()
    connection.close()
    connection = connect(use_mars=True)
    ask(connection, "rows 2 2")
    connection = connect(blocksize=32767)
    cursor = connection.cursor()
    cursor.execute(";".join(["rows 0 32"] * 150))
    count = len(cursor.fetchall())
    while cursor.nextset():
        count += len(cursor.fetchall())
    print(count, "rows in packets of up to 32767")


for part in (queries, parameters, databases, pools, bulk, others):
    print("=", part.__name__, flush=True)
    part()
