"""What users of the DB-API module of packages/python send first: mouktelf_tds_first_hour.py PORT PACED_PORT."""
import sys

import pytds
from mouktelf import tds


def connect(**more):
    words = dict(port=int(sys.argv[1]), user="a", password="b", autocommit=True, login_timeout=60, timeout=60)
    return tds.connect("127.0.0.1", **dict(words, **more))


def ask(connection, text, *parameters):
    """Prints what a text is answered with."""
    cursor = connection.cursor()
    try:
        cursor.execute(text, parameters)
        sets = []
        while True:
            if cursor.description:
                sets.append(cursor.fetchall())
            if not cursor.nextset():
                break
        print(text[:40], parameters or "", "->", sets)
    except tds.Error as error:
        print(text[:40], parameters or "", "->", type(error).__name__, error)


def queries():
    connection = connect()
    for text in ("select 1", "select 1 as one, N'it''s' two", "select @@trancount",
                 "begin tran; select @@trancount", "save tran there", "rollback tran there",
                 "select @@trancount", "commit transaction", "if @@trancount > 0 rollback tran",
                 "save tran nowhere", "set nocount on", "use [other]", "select db_name()",
                 "select * from sys.tables", "set language us_english set dateformat mdy; select 2"):
        ask(connection, text)
    ask(connection, "rows 1 1;" * 300 + "rows 1 1")
    ask(connection, "select 3 -- alive")


def parameters():
    connection = connect()
    ask(connection, "rows %s 2", 7)
    ask(connection, "select %s, %s", 5, "five")
    ask(connection, "select %s, %s", None, b"\1\2")
    ask(connection, "set q %s", -9)
    cursor = connection.cursor()
    cursor.execute("select %(b)s, %(a)s", {"a": "x", "b": True})
    print("by name ->", cursor.fetchall())
    cursor.executemany("set q %s", [(1,), (2,)])
    print("executemany done")
    try:
        connection.cursor().callproc("sp_who")
    except tds.Error as error:
        print("callproc ->", type(error).__name__, error)
    ask(connection, "rows 4 1")


def databases():
    connection = connect(database="master")
    ask(connection, "select db_name()")
    ask(connection, "rows 1 1")


def others():
    connection = connect(autocommit=False, isolation_level=4)
    ask(connection, "select @@trancount")
    connection.commit()
    ask(connection, "select @@trancount")
    connection.close()
    connection = connect(blocksize=32767)
    cursor = connection.cursor()
    cursor.execute(";".join(["rows 0 32"] * 150))
    count = len(cursor.fetchall())
    while cursor.nextset():
        count += len(cursor.fetchall())
    print(count, "rows in packets of up to 32767")


def bulk():
    connection = connect()
    columns = [tds.Column("n", type=pytds.tds_types.IntType()), tds.Column("t", type=pytds.tds_types.NVarCharType(20))]
    loaded = connection.cursor().copy_to(data=[(1, "one"), (2, None), (3, "three")], table_or_view="t", columns=columns)
    print("bulk done", loaded.rowcount)
    ask(connection, "select 4")


def sqlalchemy():
    """An ORM's engine over the module's dialect, and over its pool."""
    try:
        from sqlalchemy import create_engine, exc, literal, pool, select, text
        from sqlalchemy.dialects import registry
    except ImportError:
        return print("sqlalchemy: not installed")
    registry.register("mssql.mouktelf", "mouktelf.tds.sqlalchemy", "Dialect")
    told = []
    with create_engine(f"mssql+mouktelf://a:b@127.0.0.1:{sys.argv[1]}/main").connect() as connection:
        told.append(connection.execute(select(literal(5), literal("five"))).fetchall())
    own = tds.Pool("127.0.0.1", port=int(sys.argv[1]), user="a", password="b", most=1)
    engine = create_engine("mssql+mouktelf://", creator=own.connection, poolclass=pool.NullPool)
    for query in ("select db_name()", "select * from sys.tables", "select @@trancount"):
        try:
            with engine.begin() as connection:
                told.append(connection.execute(text(query)).scalar())
        except exc.DBAPIError as error:
            told.append(error.orig.number)
    return print("sqlalchemy:", *told, own.statistics().opened)


for part in (queries, parameters, databases, others, bulk, sqlalchemy):
    print("=", part.__name__, flush=True)
    part()
