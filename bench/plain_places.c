/* Where each value of a row stands, in plain C: a switch over how a column's values are spelled, as a C programmer writes it, to be
   measured beside the proved `tds_row_places` (bench/places.c).

   usage: plain_places FILE TIMES     FILE has a COLMETADATA, rows, a DONE (bench/wire_streams.py); prints rows, values that are not
   null, the sums of their places in the file and of their lengths. */
#include <stdint.h>
#include <stdio.h>
#include <stdlib.h>

enum { MOST_COLUMNS = 4096 };

enum shape { FIXED, BYTE_COUNT, SHORT_COUNT, LONG_COUNT, POINTER, PARTS };

struct column { uint8_t shape, size; };
struct place { uint64_t start, length; uint8_t null; };

static struct column columns[MOST_COLUMNS];
static struct place places[MOST_COLUMNS];

static uint32_t two(const uint8_t *at) { return at[0] | (uint32_t)at[1] << 8; }
static uint32_t four(const uint8_t *at) { return two(at) | two(at + 2) << 16; }

static struct column type_of(uint8_t kind, const uint8_t *at, size_t *more)
{
    switch (kind) {
    case 0x38: *more = 0; return (struct column){ FIXED, 4 };
    case 0x26: case 0x68: case 0x6D: case 0x2A: *more = 1; return (struct column){ BYTE_COUNT, 0 };
    case 0x6A: *more = 3; return (struct column){ BYTE_COUNT, 0 };
    case 0xA5: *more = 2; return (struct column){ two(at) == 0xFFFF ? PARTS : SHORT_COUNT, 0 };
    case 0xA7: case 0xE7: *more = 7; return (struct column){ two(at) == 0xFFFF ? PARTS : SHORT_COUNT, 0 };
    default: fprintf(stderr, "plain_places: type %u\n", kind); exit(1);
    }
}

/* The columns of a COLMETADATA: how many bytes it has. */
static size_t read_columns(const uint8_t *bytes, size_t *count)
{
    const uint8_t *at = bytes + 3;
    *count = two(bytes + 1);
    for (size_t i = 0; i < *count; i++) {
        size_t more;
        columns[i] = type_of(at[6], at + 7, &more);
        at += 7 + more;
        at += 1 + 2 * at[0];
    }
    return at - bytes;
}

/* A value in parts, behind its length: how many bytes it has, 0 where they end first. */
static size_t parts(const uint8_t *bytes, size_t left)
{
    size_t at = 0;
    for (;;) {
        if (left - at < 4)
            return 0;
        uint32_t count = four(bytes + at);
        at += 4;
        if (count == 0)
            return at;
        if (left - at < count)
            return 0;
        at += count;
    }
}

/* Where each value stands: how many bytes the row has, 0 where they end first. */
static size_t read_row(size_t count, const uint8_t *bytes, size_t length, struct place *found)
{
    size_t at = 1;
    const uint8_t *nulls = NULL;
    if (bytes[0] == 0xD2) {
        nulls = bytes + 1;
        at += (count + 7) / 8;
        if (length < at)
            return 0;
    }
    for (size_t i = 0; i < count; i++) {
        size_t lead = 0, own = 0, behind = 0, left = length - at;
        uint8_t null = 0;
        if (nulls && nulls[i >> 3] >> (i & 7) & 1) {
            found[i] = (struct place){ at, 0, 1 };
            continue;
        }
        switch (columns[i].shape) {
        case FIXED:
            own = columns[i].size;
            null = own == 0;
            break;
        case BYTE_COUNT:
            if (left < 1)
                return 0;
            lead = 1;
            own = bytes[at];
            null = own == 0;
            break;
        case SHORT_COUNT:
            if (left < 2)
                return 0;
            lead = 2;
            own = two(bytes + at);
            if (own == 0xFFFF)
                own = 0, null = 1;
            break;
        case LONG_COUNT:
            if (left < 4)
                return 0;
            lead = 4;
            own = four(bytes + at);
            null = own == 0;
            if (own == 0xFFFFFFFF)
                own = 0, null = 1;
            break;
        case POINTER:
            if (left < 1)
                return 0;
            lead = 1;
            null = 1;
            if (bytes[at]) {
                lead = bytes[at] + 13u;
                if (left < lead)
                    return 0;
                own = four(bytes + at + lead - 4);
                null = own == 0xFFFFFFFF;
                if (null)
                    own = 0;
            }
            break;
        default: /* PARTS */
            if (left < 8)
                return 0;
            lead = 8;
            if (four(bytes + at) == 0xFFFFFFFF && four(bytes + at + 4) == 0xFFFFFFFF) {
                null = 1;
                break;
            }
            own = parts(bytes + at + 8, left - 8);
            if (own == 0)
                return 0;
            own -= 4;
            behind = 4;
        }
        if (left - lead < own)
            return 0;
        found[i] = (struct place){ at + lead, own, null };
        at += lead + own + behind;
    }
    return at;
}

int main(int argc, char **argv)
{
    FILE *file = argc == 3 ? fopen(argv[1], "rb") : NULL;
    if (!file) {
        fprintf(stderr, "usage: plain_places FILE TIMES\n");
        return 2;
    }
    fseek(file, 0, SEEK_END);
    size_t size = ftell(file), times = strtoul(argv[2], NULL, 10), count = 0;
    uint8_t *bytes = malloc(size + 1);
    rewind(file);
    if (!bytes || fread(bytes, 1, size, file) != size)
        return 2;
    uint64_t rows = 0, values = 0, starts = 0, lengths = 0;
    while (times--) {
        size_t at = read_columns(bytes, &count), taken;
        while (bytes[at] == 0xD1 || bytes[at] == 0xD2) {
            taken = read_row(count, bytes + at, size - at, places);
            if (taken == 0)
                return 1;
            rows++;
            for (size_t i = 0; i < count; i++) {
                values += !places[i].null;
                starts += at + places[i].start;
                lengths += places[i].length;
            }
            at += taken;
        }
    }
    printf("%llu %llu %llu %llu\n", (unsigned long long)rows, (unsigned long long)values, (unsigned long long)starts,
           (unsigned long long)lengths);
    return 0;
}
