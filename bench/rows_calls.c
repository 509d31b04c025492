/* Reads the rows of rows_server over a socket, and sums the values: by the calls of include/tds.h,
 * or by plain C that looks at the same lengths and has no client.
 *
 * usage: rows_calls WAY PORT COLUMNS TIMES
 *
 * WAY is `tds` or `plain`, and reads as much as has come, 64 KB at most; or `tds-each` or
 * `plain-each`, and reads a packet's header and then the packet, as FreeTDS does. It prints as
 * rows_freetds does, of the time from the answer's first bytes to its end.
 */
#define _POSIX_C_SOURCE 200809L
#include "tds.h"
#include "rows_clock.h"
#include <arpa/inet.h>
#include <stdlib.h>
#include <string.h>
#include <sys/socket.h>
#include <unistd.h>

static void stop(const char *why, unsigned number) {
    fprintf(stderr, "rows_calls: %s %u\n", why, number);
    exit(1);
}

static void put(int to, const uint8_t *bytes, size_t length) {
    if (send(to, bytes, length, 0) != (ssize_t)length) stop("send", 0);
}

/* ---- By the calls of the client */

static struct tds_client client;
static uint8_t message[TDS_MESSAGE_MOST], out[4096];

static void ask(int to, int columns) {
    uint16_t text[] = {'r', 'o', 'w', 's', ' ', (uint16_t)('0' + columns)};
    size_t count = 0, sent = 0;
    uint8_t answer = tds_client_start_batch(&client, text, sizeof text / 2, message, sizeof message, &count);
    if (answer != TDS_OK) stop("start", answer);
    answer = tds_client_send(&client, message, count, out, sizeof out, &sent);
    if (answer != TDS_LAST) stop("send", answer);
    put(to, out, sent);
}

static void sum_run(const uint8_t *at, const struct tds_rows *rows, struct read_rows *found) {
    found->rows += rows->count;
    for (size_t row = 0; row < rows->count; row++, at += 1 + 4 * rows->columns)
        for (size_t i = 0; i < rows->columns; i++) {
            uint32_t value;
            memcpy(&value, at + 1 + 4 * i, 4);
            found->sum += value;
        }
}

/* Takes the packet at the front, and gives its length, or 0 where it isn't whole. */
static size_t take_by_calls(const uint8_t *bytes, size_t length, struct read_rows *found, int *ended) {
    struct tds_packet packet;
    struct tds_cursor cursor = {0, client.columns};
    struct tds_token token;
    struct tds_rows rows;
    uint8_t answer = tds_packet_read(bytes, length, 4096, TDS_TO_CLIENT, &packet);
    if (answer == TDS_WANTS_BYTES) return 0;
    if (answer != TDS_OK) stop("packet", answer);
    uint8_t took = tds_client_take(&client, bytes, packet.length);
    if (took >= TDS_NO_CLIENT) stop("take", took);
    const uint8_t *data = bytes + 8;
    while (cursor.at < packet.length - 8)
        if (data[cursor.at] == TDS_ROW && tds_rows_next(data, packet.length - 8, &cursor, &rows) == TDS_OK && rows.count > 0)
            sum_run(data + rows.start, &rows, found);
        else if ((answer = tds_token_next(data, packet.length - 8, &cursor, &token)) != TDS_OK)
            stop("token", answer);
    *ended = took == TDS_FINISHED;
    return packet.length;
}

/* ---- In plain C */

static unsigned plain_columns;

static void ask_plainly(int to, int columns) {
    uint8_t packet[] = {1, 1, 0, 42, 0, 0, 1, 0, 22, 0, 0, 0, 18, 0, 0, 0, 2, 0, 0, 0, 0, 0, 0, 0, 0, 0, 1, 0, 0, 0,
                        'r', 0, 'o', 0, 'w', 0, 's', 0, ' ', 0, (uint8_t)('0' + columns), 0};
    put(to, packet, sizeof packet);
}

static size_t columns_of(const uint8_t *at, size_t left) {
    size_t used = 2;
    if (left < 2) stop("cut", 0);
    plain_columns = (unsigned)(at[0] | at[1] << 8);
    if (plain_columns < 1 || plain_columns > 16) stop("columns", plain_columns);
    for (unsigned i = 0; i < plain_columns; i++) {
        if (left < used + 8 || at[used + 6] != 0x38) stop("column", i);
        used += 8 + 2u * at[used + 7];
    }
    if (left < used) stop("cut", 0);
    return used;
}

static const uint8_t *sum_row(const uint8_t *at, size_t left, struct read_rows *found) {
    if (plain_columns == 0 || left < 4u * plain_columns) stop("row", 0);
    found->rows += 1;
    for (unsigned i = 0; i < plain_columns; i++) {
        uint32_t value;
        memcpy(&value, at + 4u * i, 4);
        found->sum += value;
    }
    return at + 4u * plain_columns;
}

static size_t take_plainly(const uint8_t *bytes, size_t length, struct read_rows *found, int *ended) {
    if (length < 8) return 0;
    size_t whole = (size_t)bytes[2] << 8 | bytes[3];
    if (bytes[0] != 4 || bytes[1] > 1 || whole < 8 || whole > 4096) stop("header", 0);
    if (length < whole) return 0;
    const uint8_t *at = bytes + 8, *end = bytes + whole;
    while (at < end) {
        uint8_t kind = *at++;
        size_t left = (size_t)(end - at);
        if (kind == 0xD1) at = sum_row(at, left, found);
        else if (kind == 0x81) at += columns_of(at, left);
        else if (kind == 0xFD && left >= 12) at += 12, plain_columns = 0;
        else stop("token", kind);
    }
    *ended = bytes[1] == 1;
    return whole;
}

/* ---- The socket */

typedef size_t take_packet(const uint8_t *, size_t, struct read_rows *, int *);
static uint8_t buffer[65536];

static size_t come(int from, uint8_t *to, size_t room) {
    ssize_t count = recv(from, to, room, 0);
    if (count <= 0) stop("the server hung up", 0);
    return (size_t)count;
}

/* What has come is taken, and what is left of a packet goes to the front. */
static void read_much(int from, take_packet *take) {
    struct read_rows found = {0, 0};
    struct moment start = {0, 0};
    int ended = 0;
    size_t had = 0;
    while (!ended) {
        had += come(from, buffer + had, sizeof buffer - had);
        if (start.wall == 0) start = moment();
        size_t at = 0, whole;
        while (!ended && (whole = take(buffer + at, had - at, &found, &ended)) > 0) at += whole;
        memmove(buffer, buffer + at, had - at);
        had -= at;
    }
    print_rows(start, found);
}

static void come_all(int from, uint8_t *to, size_t length) {
    while (length > 0) {
        size_t count = come(from, to, length);
        to += count, length -= count;
    }
}

/* One packet after the other: its header, and then what its length says. */
static void read_each(int from, take_packet *take) {
    struct read_rows found = {0, 0};
    struct moment start = {0, 0};
    int ended = 0;
    while (!ended) {
        come_all(from, buffer, 8);
        if (start.wall == 0) start = moment();
        size_t whole = (size_t)buffer[2] << 8 | buffer[3];
        if (whole > 8) come_all(from, buffer + 8, whole - 8);
        if (take(buffer, whole, &found, &ended) != whole) stop("packet", 0);
    }
    print_rows(start, found);
}

int main(int argc, char **argv) {
    struct sockaddr_in there = {.sin_family = AF_INET, .sin_addr.s_addr = htonl(INADDR_LOOPBACK)};
    if (argc != 5) return 2;
    int by_calls = strncmp(argv[1], "tds", 3) == 0, each = strstr(argv[1], "-each") != NULL, columns = atoi(argv[3]);
    take_packet *take = by_calls ? take_by_calls : take_plainly;
    there.sin_port = htons((uint16_t)atoi(argv[2]));
    int with = socket(AF_INET, SOCK_STREAM, 0);
    if (with < 0 || connect(with, (struct sockaddr *)&there, sizeof there) != 0) stop("no connection", 0);
    tds_client_new(4096, &client);
    for (long times = strtol(argv[4], NULL, 10); times > 0; times--) {
        if (by_calls) ask(with, columns);
        else ask_plainly(with, columns);
        if (each) read_each(with, take);
        else read_much(with, take);
    }
    close(with);
    return 0;
}
