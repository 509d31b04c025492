"""pymssql where scripts put it into bad places: pymssql_scripted.py NAME=PORT.. Its `timeout` cancels a request."""
import sys

import pymssql

PORTS = dict(word.split("=") for word in sys.argv[1:])


def connect(name, patience=5):
    print(name)
    return pymssql.connect(server="127.0.0.1", port=PORTS[name], user="a", password="b", tds_version="7.3",
                           autocommit=True, login_timeout=5, timeout=patience)


def ask(connection, text):
    try:
        cursor = connection.cursor()
        cursor.execute(text)
        sets = []
        while True:
            if cursor.description:
                sets.append([row[0] for row in cursor.fetchall()])
            if not cursor.nextset():
                break
        print(" ", text[:40], "->", sets)
    except Exception as error:  # whatever it shows
        print(" ", text[:40], "->", type(error).__name__)


def asks(name, *texts, patience=5):
    connection = connect(name, patience)
    for text in texts:
        ask(connection, text)


asks("held", "rows 1 1;rows 5 1;rows 9 1", "rows 7 1", patience=1)
asks("crossed", "rows 1 1;rows 5 1;rows 9 1", "rows 7 1", patience=1)
asks("begin_crossed", "begin", "commit", "commit", patience=1)
asks("cut", "rows 1 1", "rows 1 9", "rows 3 1")
asks("split", "rows 1 3;say x;rows 5 1")
if "twice" in PORTS:
    asks("twice", "say twice;rows 1 1", "rows 7 1", "rows 9 1")
if "early" in PORTS:
    asks("early", "say early" + "0" * 60000, "rows 7 1")
if "lent" in PORTS:
    lender = connect("lent")
    lender.cursor().execute("say lender;rows 1 9")
    lender.close()
    asks("lent", "say borrower")
