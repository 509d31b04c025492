"""Reads an answer by pymssql, all rows of it, and prints the nanoseconds of the processor that it took and the rows.

usage: reads_pymssql PORT ANSWER TIMES      asks a server of this machine for that answer, once and so many times more
"""
import sys
import time

import pymssql


def read(link, answer):
    """Asks for it and goes over its rows."""
    with link.cursor() as cursor:
        cursor.execute(answer)
        return sum(1 for _ in cursor)


def main():
    port, answer, times = sys.argv[1], sys.argv[2], int(sys.argv[3])
    link = pymssql.connect(server="127.0.0.1", port=port, user="u", password="p", tds_version="7.3", autocommit=True)
    rows = read(link, answer)
    start = time.process_time_ns()
    for _ in range(times):
        rows += read(link, answer)
    print(time.process_time_ns() - start, rows)


main()
