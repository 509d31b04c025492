/* The walks of bench_calls (tests/crates/bench_calls/src/walks.rs), by the calls of include/tds.h.
 *
 * usage: calls WALK FILE SIZE TIMES      does this walk so many times, and prints each time what it counts:
 *                                        packets, tokens, rows and a sum
 */
#include "tds.h"
#include <stdio.h>
#include <stdlib.h>
#include <string.h>

struct counted {
    uint64_t packets, tokens, rows, sum;
};

static void stop(const char *why, unsigned number) {
    fprintf(stderr, "calls: %s %u\n", why, number);
    exit(1);
}

#define ROOM 64

/* The packets that were found and are still to be given. */
static struct {
    struct tds_packet found[ROOM];
    size_t next, count;
} fronts;

/* The length of the packet at the front: as many a call are found as there is room for. */
static size_t front(const uint8_t *bytes, size_t length, uint16_t size) {
    if (fronts.next == fronts.count) {
        uint8_t answer = tds_packets_read(bytes, length, size, TDS_TO_CLIENT, fronts.found, ROOM, &fronts.count);
        if (fronts.count == 0) stop("packets", answer);
        fronts.next = 0;
    }
    return fronts.found[fronts.next++].length;
}

/* A packet a call. */
static struct counted packet(const uint8_t *bytes, size_t length, uint16_t size) {
    struct counted counted = {0, 0, 0, 0};
    while (length > 0) {
        struct tds_packet found;
        uint8_t answer = tds_packet_read(bytes, length, size, TDS_TO_CLIENT, &found);
        if (answer != TDS_OK) stop("packet", answer);
        bytes += found.length, length -= found.length;
        counted.packets += 1, counted.sum += found.length;
    }
    return counted;
}

static struct counted packets(const uint8_t *bytes, size_t length, uint16_t size) {
    struct counted counted = {0, 0, 0, 0};
    while (length > 0) {
        size_t whole = front(bytes, length, size);
        bytes += whole, length -= whole;
        counted.packets += 1, counted.sum += whole;
    }
    return counted;
}

static struct tds_client client;
static uint8_t message[TDS_MESSAGE_MOST], out[4096];

/* Sends a request, which is one packet. */
static void ask(void) {
    static const uint16_t text[] = {'s', 'e', 'l', 'e', 'c', 't', ' ', 'a', ' ', 'f', 'r', 'o', 'm', ' ', 'b'};
    size_t count = 0, sent = 0;
    uint8_t answer = tds_client_start_batch(&client, text, sizeof text / 2, message, sizeof message, &count);
    if (answer != TDS_OK) stop("start", answer);
    answer = tds_client_send(&client, message, count, out, sizeof out, &sent);
    if (answer != TDS_LAST) stop("send", answer);
}

static struct counted hear(const uint8_t *bytes, size_t length, uint16_t size) {
    struct counted counted = {0, 0, 0, 0};
    tds_client_new(size, &client);
    ask();
    while (length > 0) {
        size_t whole = front(bytes, length, size);
        uint8_t answer = tds_client_take(&client, bytes, whole);
        if (answer >= TDS_NO_CLIENT) stop("take", answer);
        bytes += whole, length -= whole;
        counted.packets += 1, counted.sum += answer;
        if (answer == TDS_FINISHED) ask();
    }
    return counted;
}

static struct tds_token read_tokens[ROOM];

/* Reads a packet's tokens, as many a call as there is room for. */
static uint8_t count_tokens(const uint8_t *data, size_t length, uint8_t columns, struct counted *counted) {
    struct tds_cursor cursor = {0, columns};
    size_t count;
    uint8_t answer;
    do {
        answer = tds_tokens_next(data, length, &cursor, read_tokens, ROOM, &count);
        counted->tokens += count;
        for (const struct tds_token *token = read_tokens; token < read_tokens + count; token++)
            if (token->kind == TDS_ROW) counted->rows += 1;
            else if (token->kind == TDS_DONE) counted->sum += token->value;
    } while (answer == TDS_OK);
    if (answer != TDS_END) stop("token", answer);
    return cursor.columns;
}

static struct counted tokens(const uint8_t *bytes, size_t length, uint16_t size) {
    struct counted counted = {0, 0, 0, 0};
    uint8_t columns = 0;
    while (length > 0) {
        size_t whole = front(bytes, length, size);
        columns = count_tokens(bytes + 8, whole - 8, columns, &counted);
        bytes += whole, length -= whole;
        counted.packets += 1;
    }
    return counted;
}

static void sum_run(const uint8_t *data, const struct tds_rows *rows, struct counted *counted) {
    const uint8_t *at = data + rows->start;
    counted->tokens += rows->count, counted->rows += rows->count;
    for (size_t row = 0; row < rows->count; row++, at += 1 + 4 * rows->columns)
        for (size_t i = 0; i < rows->columns; i++) {
            uint32_t value;
            memcpy(&value, at + 1 + 4 * i, 4);
            counted->sum += value;
        }
}

static uint8_t sum_runs(const uint8_t *data, size_t length, uint8_t columns, struct counted *counted) {
    struct tds_cursor cursor = {0, columns};
    struct tds_rows rows;
    uint8_t answer;
    while (cursor.at < length)
        if (data[cursor.at] == TDS_ROW && tds_rows_next(data, length, &cursor, &rows) == TDS_OK && rows.count > 0)
            sum_run(data, &rows, counted);
        else if ((answer = tds_token_next(data, length, &cursor, read_tokens)) == TDS_OK)
            counted->tokens += 1;
        else
            stop("token", answer);
    return cursor.columns;
}

static struct counted rows(const uint8_t *bytes, size_t length, uint16_t size) {
    struct counted counted = {0, 0, 0, 0};
    uint8_t columns = 0;
    while (length > 0) {
        size_t whole = front(bytes, length, size);
        columns = sum_runs(bytes + 8, whole - 8, columns, &counted);
        bytes += whole, length -= whole;
        counted.packets += 1;
    }
    return counted;
}

static struct counted values(const uint8_t *bytes, size_t length, uint16_t size) {
    struct counted counted = {0, 0, 0, 0};
    tds_client_new(size, &client);
    ask();
    while (length > 0) {
        size_t whole = front(bytes, length, size);
        uint8_t columns = client.columns, answer = tds_client_take(&client, bytes, whole);
        if (answer >= TDS_NO_CLIENT) stop("take", answer);
        sum_runs(bytes + 8, whole - 8, columns, &counted);
        bytes += whole, length -= whole;
        counted.packets += 1;
        if (answer == TDS_FINISHED) ask();
    }
    return counted;
}

static const struct {
    const char *name;
    struct counted (*walk)(const uint8_t *, size_t, uint16_t);
} WALKS[] = {{"packets", packets}, {"packet", packet}, {"hear", hear}, {"tokens", tokens}, {"rows", rows}, {"values", values}};

int main(int argc, char **argv) {
    if (argc != 5) return 2;
    FILE *file = fopen(argv[2], "rb");
    if (file == NULL || fseek(file, 0, SEEK_END) != 0) return 2;
    size_t length = (size_t)ftell(file), which = 0;
    uint8_t *bytes = malloc(length + 1);
    rewind(file);
    if (bytes == NULL || fread(bytes, 1, length, file) != length) return 2;
    while (which < sizeof WALKS / sizeof WALKS[0] && strcmp(WALKS[which].name, argv[1]) != 0) which++;
    if (which == sizeof WALKS / sizeof WALKS[0]) return 2;
    for (long times = strtol(argv[4], NULL, 10); times > 0; times--) {
        struct counted c = WALKS[which].walk(bytes, length, (uint16_t)atoi(argv[3]));
        printf("%llu %llu %llu %llu\n", (unsigned long long)c.packets, (unsigned long long)c.tokens,
               (unsigned long long)c.rows, (unsigned long long)c.sum);
    }
    free(bytes);
    return 0;
}
