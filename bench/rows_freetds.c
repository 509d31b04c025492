/* Reads the rows of rows_server by FreeTDS's db-lib, each value bound to an int, and sums the
 * values.
 *
 * usage: rows_freetds PORT COLUMNS TIMES      prints the version, and for each time the nanoseconds
 *                                             from the answer's first token to its end, those of
 *                                             the processor, the rows and the sum
 */
#include <stdint.h>
#include <stdio.h>
#include <stdlib.h>
#include <sybfront.h>
#include <sybdb.h>
#include "rows_clock.h"

static void stop(const char *why) {
    fprintf(stderr, "rows_freetds: %s\n", why);
    exit(1);
}

static DBPROCESS *opened(const char *port) {
    char server[64];
    LOGINREC *login = dblogin();
    if (login == NULL) stop("login");
    DBSETLUSER(login, "a");
    DBSETLPWD(login, "b");
    DBSETLVERSION(login, DBVERSION_74);
    snprintf(server, sizeof server, "127.0.0.1:%s", port);
    DBPROCESS *with = dbopen(login, server);
    if (with == NULL) stop("no connection");
    dbloginfree(login);
    return with;
}

static void read_rows(DBPROCESS *with, int columns) {
    int32_t values[8] = {0};
    struct read_rows found = {0, 0};
    dbfcmd(with, "rows %d", columns);
    if (dbsqlexec(with) != SUCCEED || dbresults(with) != SUCCEED) stop("no rows");
    if (dbnumcols(with) != columns) stop("other columns");
    for (int i = 0; i < columns; i++)
        if (dbbind(with, i + 1, INTBIND, 0, (BYTE *)&values[i]) != SUCCEED) stop("bind");
    struct moment start = moment();
    while (dbnextrow(with) == REG_ROW) {
        found.rows += 1;
        for (int i = 0; i < columns; i++) found.sum += (uint32_t)values[i];
    }
    print_rows(start, found);
    if (dbresults(with) != NO_MORE_RESULTS) stop("more results");
}

int main(int argc, char **argv) {
    if (argc != 4 || dbinit() != SUCCEED) return 2;
    DBPROCESS *with = opened(argv[1]);
    int columns = atoi(argv[2]);
    if (columns < 1 || columns > 8) return 2;
    printf("FreeTDS (%s), TDS %s\n", dbversion(), dbtds(with) == DBTDS_7_4 ? "7.4" : "other");
    for (long times = strtol(argv[3], NULL, 10); times > 0; times--) read_rows(with, columns);
    dbclose(with);
    dbexit();
    return 0;
}
