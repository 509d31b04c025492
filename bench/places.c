/* Where each value of a row stands, by the calls of include/tds_wire.h.

   usage: places FILE TIMES [row | PIECE]     FILE has a COLMETADATA, rows, a DONE (bench/wire_streams.py); prints rows, values that
   are not null, the sums of their places in the file and of their lengths, as plain_places does. By one call for many rows, or for each
   row; or of the tokens that a client hears, as their bytes come in pieces of this size, as plain_walked does. */
#include "tds.h"
#include "tds_wire.h"
#include <stdio.h>
#include <stdlib.h>

enum { ROOM = TDS_WIRE_MOST_COLUMNS, TOKENS = 256 };

static struct tds_column columns[TDS_WIRE_MOST_COLUMNS];
static struct tds_place places[ROOM];
static uint64_t rows, values, starts, lengths;

static inline void sum(size_t count, size_t at)
{
    for (size_t i = 0; i < count; i++) {
        values += !places[i].null;
        starts += at + places[i].start;
        lengths += places[i].length;
    }
}

static void each_row(const uint8_t *bytes, size_t size, size_t count, size_t at)
{
    size_t taken = 0;
    for (; tds_row_places(columns, count, bytes + at, size - at, places, count, &taken) == TDS_WIRE_ENDED; at += taken) {
        rows++;
        sum(count, at);
    }
}

static void many_rows(const uint8_t *bytes, size_t size, size_t count, size_t at)
{
    size_t found = 0, taken = 0;
    uint8_t answer = TDS_WIRE_MANY_COLUMNS;
    for (; answer == TDS_WIRE_MANY_COLUMNS; at += taken) {
        answer = tds_places_of_rows(columns, count, bytes + at, size - at, places, ROOM, &found, &taken);
        rows += found;
        sum(found * count, at);
    }
}

/* Of the tokens of one call: rows that stand one behind the other are one run. */
static int heard_rows(const uint8_t *bytes, const struct tds_wire_token *tokens, size_t heard, size_t *count)
{
    size_t taken = 0;
    for (size_t i = 0; i < heard; i++) {
        size_t at = tokens[i].start, end = at + tokens[i].length;
        if (tokens[i].kind == 0x81 && tds_columns(bytes + at, end - at, 0, columns, TDS_WIRE_MOST_COLUMNS, count, &taken) != TDS_WIRE_ENDED)
            return 1;
        if (tokens[i].kind != 0xD1 && tokens[i].kind != 0xD2)
            continue;
        for (; i + 1 < heard && (tokens[i + 1].kind == 0xD1 || tokens[i + 1].kind == 0xD2); i++)
            end += tokens[i + 1].length;
        many_rows(bytes, end, *count, at);
    }
    return 0;
}

static int by_a_client(const uint8_t *bytes, size_t size, size_t piece)
{
    static struct tds_client client;
    static struct tds_wire walk;
    static struct tds_wire_memory memory;
    static struct tds_wire_token tokens[TOKENS];
    uint8_t out[4096], answer = TDS_OK;
    size_t count = 0, heard = 0, taken = 0;
    tds_client_new(sizeof out, &client);
    tds_wire_new(TDS_WIRE_MOST_COLUMNS, 0, 0, &walk, &memory);
    if (tds_client_ask(&client, TDS_MESSAGE_BATCH, (const uint8_t *)"a", 2, out, sizeof out, &count) != TDS_OK)
        return 1;
    for (size_t at = 0, end = 0; at < size || answer == TDS_TELL; at += taken) {
        if (answer != TDS_TELL)
            end = size - at < piece ? size : at + piece;
        answer = tds_client_hear(&client, &walk, &memory, bytes + at, end - at, end == size, &taken, tokens, TOKENS, &heard);
        if (answer >= 20 || heard_rows(bytes, tokens, heard, &count))
            return 1;
    }
    return answer != TDS_FINISHED;
}

int main(int argc, char **argv)
{
    FILE *file = argc >= 3 ? fopen(argv[1], "rb") : NULL;
    if (!file) {
        fprintf(stderr, "usage: places FILE TIMES [row | PIECE]\n");
        return 2;
    }
    fseek(file, 0, SEEK_END);
    size_t size = ftell(file), times = strtoul(argv[2], NULL, 10), count = 0;
    uint8_t *bytes = malloc(size + 1);
    rewind(file);
    if (!bytes || fread(bytes, 1, size, file) != size)
        return 2;
    size_t piece = argc > 3 ? strtoul(argv[3], NULL, 10) : 0;
    while (times--) {
        size_t at = 0;
        if (piece) {
            if (by_a_client(bytes, size, piece))
                return 1;
            continue;
        }
        if (tds_columns(bytes, size, 0, columns, TDS_WIRE_MOST_COLUMNS, &count, &at) != TDS_WIRE_ENDED)
            return 1;
        (argc > 3 ? each_row : many_rows)(bytes, size, count, at);
    }
    printf("%llu %llu %llu %llu\n", (unsigned long long)rows, (unsigned long long)values, (unsigned long long)starts,
           (unsigned long long)lengths);
    return 0;
}
