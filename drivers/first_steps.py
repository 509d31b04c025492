"""The first steps of tools that drivers/run has no program of its own for: first_steps.py PORT PACED_PORT.

A line for each step, `not installed` where its tool isn't. Each tool has a bound of time, and none may hang.
"""
import os
import shutil
import subprocess
import sys
import tempfile

PORT = sys.argv[1]
PLACE = "127.0.0.1"




def ran(words, given="", **more):
    """What a tool prints on both streams, in one line; None where it isn't there."""
    if not shutil.which(words[0]):
        return None
    try:
        done = subprocess.run(words, input=given, stdout=subprocess.PIPE, stderr=subprocess.STDOUT, text=True,
                              timeout=25, env=dict(os.environ, TDSVER="7.4", **more))
    except subprocess.TimeoutExpired:
        return "HUNG"
    return " | ".join(line.strip() for line in done.stdout.splitlines() if line.strip())


def python(module, text):
    """What a text for the system's Python prints, where it has this module."""
    if subprocess.run(["/usr/bin/python3", "-c", f"import {module}"], capture_output=True).returncode:
        return None
    return ran(["/usr/bin/python3", "-c", text.replace("PORT", PORT)])


def bsqldb():
    return ran(["bsqldb", "-U", "a", "-P", "b", "-S", f"{PLACE}:{PORT}", "-q"], "rows 7 2\n")


def fisql():
    return ran(["fisql", "-U", "a", "-P", "b", "-S", f"{PLACE}:{PORT}"], "rows 7 2\ngo\nquit\n")


def perl():
    text = ("use DBI; my $d = DBI->connect('dbi:Sybase:host=127.0.0.1;port=PORT', 'a', 'b') or die;"
            "print join(',', map {$_->[0]} @{$d->selectall_arrayref('rows 7 2')}), qq{\\n};")
    has = shutil.which("perl") and not subprocess.run(["perl", "-MDBD::Sybase", "-e", "1"], capture_output=True).returncode
    return ran(["perl", "-e", text.replace("PORT", PORT)]) if has else None


def php(more=""):
    text = ("$d = new PDO('dblib:host=127.0.0.1:PORT;version=7.4MORE', 'a', 'b');"
            "foreach ($d->query('rows 7 2') as $r) { echo $r[0], \"\\n\"; }")
    has = shutil.which("php") and "pdo_dblib" in subprocess.run(["php", "-m"], capture_output=True, text=True).stdout
    return ran(["php", "-r", text.replace("PORT", PORT).replace("MORE", more)]) if has else None


def pymssql():
    return python("pymssql", """
import pymssql
d = pymssql.connect(server="127.0.0.1", port="PORT", user="a", password="b", database="master", timeout=10,
                    autocommit=True)
c = d.cursor()
c.execute("rows 7 2"); print(c.fetchall())
c.execute("rows %d 2", (5,)); print(c.fetchall())
c.execute("select @@version, db_name()"); print([str(it)[:20] for it in c.fetchone()])
""")


def isql():
    driver = "/usr/lib/x86_64-linux-gnu/odbc/libtdsodbc.so"
    if not os.path.exists(driver):
        return None
    with tempfile.TemporaryDirectory() as room:
        with open(f"{room}/odbc.ini", "w", encoding="ascii") as it:
            it.write(f"[here]\nDriver={driver}\nServer={PLACE}\nPort={PORT}\nTDS_Version=7.4\n")
        return ran(["isql", "-b", "-d,", "here", "a", "b"], "rows 7 2\n", ODBCINI=f"{room}/odbc.ini")


def pyodbc():
    return python("pyodbc", """
import pyodbc
d = pyodbc.connect("Driver=/usr/lib/x86_64-linux-gnu/odbc/libtdsodbc.so;Server=127.0.0.1;Port=PORT;UID=a;PWD=b;"
                   "TDS_Version=7.4;Database=other", autocommit=True)
c = d.cursor()
print(c.execute("select 1").fetchall(), c.execute("rows ? 2", 5).fetchall())
c.executemany("set q ?", [(1,), (2,)])
print("executemany")
for step in (lambda: c.execute("{call sp_who}"), lambda: list(c.tables()), lambda: list(c.columns(table="t"))):
    try:
        print(step())
    except pyodbc.Error as error:
        print(error.args[0])
print(c.execute("rows 9 1").fetchall())
""")


def impacket():
    return python("impacket", """
from impacket import tds
d = tds.MSSQL("127.0.0.1", PORT)
d.connect()
p = d.preLogin()
print("prelogin", p["Encryption"] if isinstance(p["Encryption"], int) else ord(p["Encryption"]), p["ThreadIDLength"])
""")


for name, step in (("bsqldb", bsqldb), ("fisql", fisql), ("DBD::Sybase", perl), ("PDO dblib", php),
                   ("PDO dblib, a database", lambda: php(";dbname=master")), ("pymssql", pymssql), ("isql", isql),
                   ("pyodbc", pyodbc), ("impacket", impacket)):
    told = step()
    print(f"{name}: {'not installed' if told is None else told}", flush=True)
