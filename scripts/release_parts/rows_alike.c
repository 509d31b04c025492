/* tds_places_of_rows beside tds_row_places, row by row: random columns, random rows of them with and without a null bitmap, cut
 * anywhere, with bytes that are changed, with room for some. Each place, each count and each answer are compared, and that nothing
 * is written behind the places of one row more.
 *
 * usage: rows_alike ROUNDS [SEED] */
#include "mouktelf.h"
#include <stdio.h>
#include <stdlib.h>
#include <string.h>

enum { MOST = 3000, COLUMNS = 12, PLACES = 120 };

static uint64_t state = 88172645463325252ull;
static uint32_t below(uint32_t n) {
    state ^= state << 13, state ^= state >> 7, state ^= state << 17;
    return (uint32_t)((state >> 16) % n);
}

static uint8_t bytes[MOST], token[MOST];
static size_t length, token_length, count;
static int kinds[COLUMNS];
static struct tds_column columns[COLUMNS];
static struct tds_place found[PLACES], one[COLUMNS];

/* Each type, as a COLMETADATA has it: an INT4, an INTN, a text, a text in parts, an image. */
static const struct { const char *type; size_t size; } TYPES[] = {
    {"\x38", 1}, {"\x26\x08", 2}, {"\xE7\x64\x00\x09\x04\xD0\x00\x34", 8}, {"\xA5\xFF\xFF", 3}, {"\x22\x00\x01\x00\x00\x01\x00\x00", 8},
};

static void put(const void *its, size_t size) {
    if (length + size <= MOST) memcpy(bytes + length, its, size), length += size;
}
static void put_random(size_t size) {
    uint8_t own[64];
    for (size_t i = 0; i < size; i++) own[i] = (uint8_t)below(256);
    put(own, size);
}
#define PUT(text) put(text, sizeof text - 1)

static void make_columns(void) {
    length = 0, count = below(COLUMNS + 1);
    bytes[length++] = 0x81, bytes[length++] = (uint8_t)count, bytes[length++] = 0;
    for (size_t i = 0; i < count; i++) {
        kinds[i] = (int)below(5);
        PUT("\x00\x00\x00\x00\x00\x00");
        put(TYPES[kinds[i]].type, TYPES[kinds[i]].size);
        PUT("\x01n\x00");
    }
    memcpy(token, bytes, token_length = length);
}

static void put_value(int kind) {
    uint8_t size = (uint8_t)below(20);
    if (kind == 0) put_random(4);
    if (kind == 1) put(&size, 1), put_random(size);
    if (kind == 2 && below(9)) put(&size, 1), PUT("\x00"), put_random(size);
    else if (kind == 2) PUT("\xFF\xFF");
    if (kind == 3 && below(9)) {
        PUT("\xFE\xFF\xFF\xFF\xFF\xFF\xFF\xFF");
        for (uint32_t n = below(3); n; n--) PUT("\x05\x00\x00\x00"), put_random(5);
        PUT("\x00\x00\x00\x00");
    } else if (kind == 3) PUT("\xFF\xFF\xFF\xFF\xFF\xFF\xFF\xFF");
    if (kind == 4 && below(3)) PUT("\x10"), put_random(24), put(&size, 1), PUT("\x00\x00\x00"), put_random(size);
    else if (kind == 4) PUT("\x00");
}

static void make_rows(void) {
    length = 0;
    for (uint32_t n = below(12); n; n--) {
        uint8_t nulls[2] = {(uint8_t)below(256), (uint8_t)below(256)};
        int with_nulls = !below(2);
        put(with_nulls ? "\xD2" : "\xD1", 1);
        if (with_nulls) put(nulls, (count + 7) / 8);
        for (size_t i = 0; i < count; i++)
            if (!with_nulls || !(nulls[i / 8] >> i % 8 & 1)) put_value(kinds[i]);
    }
    if (!below(2)) PUT("\xFD\x10\x00\xC1\x00\x01\x00\x00\x00\x00\x00\x00\x00");
    if (length && !below(4)) bytes[below((uint32_t)length)] = (uint8_t)below(256);
    if (!below(3)) length = below((uint32_t)length + 1);
}

static int same_row(const struct tds_place *its, size_t at) {
    for (size_t i = 0; i < count; i++)
        if (its[i].start != at + one[i].start || its[i].length != one[i].length || its[i].null != one[i].null) return 0;
    return 1;
}

/* 0 where the one call and the calls row by row differ; else 1 and how many rows there were. */
static size_t is_alike(size_t room) {
    size_t rows = 77, taken = 77, at = 0, seen = 0, own = 0;
    uint8_t answer, wanted = TDS_WIRE_ENDED;
    memset(found, 0x5A, sizeof found);
    answer = tds_places_of_rows(columns, count, bytes, length, found, room, &rows, &taken);
    while (at < length) {
        size_t left = room - seen * count;
        wanted = tds_row_places(columns, count, bytes + at, length - at, one, left < COLUMNS ? left : COLUMNS, &own);
        if (wanted != TDS_WIRE_ENDED) break;
        if (!same_row(found + seen * count, at)) return 0;
        seen++, at += own;
    }
    for (size_t i = (seen + 1) * count; i < PLACES; i++)
        if (found[i].start != 0x5A5A5A5A5A5A5A5Aull || found[i].null != 0x5A) return 0;
    return answer == wanted && rows == seen && taken == at ? 1 + rows : 0;
}

/* By hand (MS-TDS 2.2.7.4, 2.2.7.17, 2.2.7.13): a ROW and an NBCROW of an INTN and of an NVARCHAR(max), and a DONE behind them. */
static int by_hand(void) {
    static const struct tds_place PLACES_OF_BOTH[] = {{2, 4, 0}, {14, 6, 0}, {27, 1, 0}, {28, 0, 1}};
    size_t its = 0, rows = 0, taken = 0;
    length = 0;
    PUT("\x81\x02\x00" "\x00\x00\x00\x00\x09\x00\x26\x04\x01n\x00" "\x00\x00\x00\x00\x09\x00\xE7\xFF\xFF\x09\x04\xD0\x00\x34\x01m\x00");
    if (tds_columns(bytes, length, 0, columns, COLUMNS, &its, &taken) != TDS_WIRE_ENDED || its != 2) return 0;
    length = 0;
    PUT("\xD1" "\x04\x07\x00\x00\x00" "\x02\x00\x00\x00\x00\x00\x00\x00" "\x02\x00\x00\x00x\x00" "\x00\x00\x00\x00" "\xD2\x02" "\x01\x09" "\xFD");
    if (tds_places_of_rows(columns, 2, bytes, length, found, PLACES, &rows, &taken) != TDS_WIRE_UNKNOWN_TOKEN || rows != 2 || taken != 28) return 0;
    for (size_t i = 0; i < 4; i++) {
        const struct tds_place *it = &PLACES_OF_BOTH[i];
        if (found[i].start != it->start || found[i].length != it->length || found[i].null != it->null) return 0;
    }
    return tds_places_of_rows(columns, 2, bytes, length, found, 3, &rows, &taken) == TDS_WIRE_MANY_COLUMNS && rows == 1 && taken == 24 &&
           tds_places_of_rows(columns, 2, bytes, 26, found, 4, &rows, &taken) == TDS_WIRE_MORE && rows == 1 && taken == 24 &&
           tds_places_of_rows(columns, 2, bytes, 24, found, 2, &rows, &taken) == TDS_WIRE_ENDED && rows == 1 && taken == 24 &&
           tds_places_of_rows(columns, 0, bytes, length, found, 4, &rows, &taken) == TDS_WIRE_NO_COLUMNS && rows == 0 && taken == 0;
}

int main(int argc, char **argv) {
    unsigned long rounds = argc > 1 ? strtoul(argv[1], NULL, 10) : 1000, all = 0;
    if (argc > 2) state ^= strtoul(argv[2], NULL, 10);
    if (!by_hand()) return printf("other places than by hand\n"), 1;
    for (unsigned long round = 0; round < rounds; round++) {
        size_t its = 0, taken = 0, alike;
        make_columns();
        if (tds_columns(token, token_length, 0, columns, COLUMNS, &its, &taken) != TDS_WIRE_ENDED || its != count || taken != token_length)
            return printf("round %lu: no columns\n", round), 1;
        make_rows();
        if (!(alike = is_alike(below(PLACES + 1)))) return printf("round %lu: another answer than row by row\n", round), 1;
        all += alike - 1;
    }
    /* Where nothing was found, nothing was tried. */
    if (all < rounds) return printf("%lu rows alone\n", all), 1;
    printf("%lu rounds, %lu rows, 0 differ\n", rounds, all);
    return 0;
}
