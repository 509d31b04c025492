/* The walk of crates/tds_wire in plain C: where each token of an answer ends, as bytes come in pieces of any size.

   It is a switch over what is due, as a C programmer writes it, to be measured beside the proved walker. A number whose
   bytes are all there is read at once, and a run of bytes is one step. Column encryption and ranks of classification
   were agreed on in no login here.

   usage: plain_wire FILE PIECE TIMES [PACKETS]      prints tokens, the sum of their lengths, the counts of the DONEs. Behind
   a fourth word the file has packets.

   plain_service.c has the walk too, without its program; plain_walked.c has it with the places of a row's values. */
#include <stdint.h>
#include <stdio.h>
#include <stdlib.h>
#include <string.h>

enum { MOST_COLUMNS = 4096 };

enum shape { FIXED, BYTE_COUNT, SHORT_COUNT, LONG_COUNT, POINTER, PARTS };

struct column { uint8_t shape, size; };

enum due {
    TOKEN, LENGTH, LONG_LENGTH, CHANGE_LENGTH, CHANGE, PROMOTED, PROMOTED_OLD, FEATURE, FEATURE_LENGTH, COLUMNS, TYPE,
    MAX_LENGTH, MAX_LENGTH_COLLATED, SCHEMA, XML_DATABASE, XML_OWNER, XML_COLLECTION, UDT_DATABASE, UDT_SCHEMA, UDT_NAME,
    UDT_ASSEMBLY, TABLE_PARTS, TABLE_PART, COLUMN_NAME, PARAMETER_NAME, NULLS, VALUE_BYTE, VALUE_SHORT, VALUE_LONG,
    VALUE_POINTER, PARTS_LOW, PARTS_HIGH, PART, LABELS, LABEL_NAME, LABEL_ID, SENSITIVE, PROPERTIES,
    /* behind a run of bytes */
    ENDED, DESCRIBED, PARTED, NAMED, VALUED, LABELLED, CLASSIFIED
};

/* How many bytes the number has that is due. */
static const uint8_t width_of[] = {
    [TOKEN] = 1, [LENGTH] = 2, [LONG_LENGTH] = 4, [CHANGE_LENGTH] = 2, [CHANGE] = 1, [PROMOTED] = 4, [PROMOTED_OLD] = 1,
    [FEATURE] = 1, [FEATURE_LENGTH] = 4, [COLUMNS] = 2, [TYPE] = 1, [MAX_LENGTH] = 2, [MAX_LENGTH_COLLATED] = 2,
    [SCHEMA] = 1, [XML_DATABASE] = 1, [XML_OWNER] = 1, [XML_COLLECTION] = 2, [UDT_DATABASE] = 1, [UDT_SCHEMA] = 1,
    [UDT_NAME] = 1, [UDT_ASSEMBLY] = 2, [TABLE_PARTS] = 1, [TABLE_PART] = 2, [COLUMN_NAME] = 1, [PARAMETER_NAME] = 1,
    [NULLS] = 1, [VALUE_BYTE] = 1, [VALUE_SHORT] = 2, [VALUE_LONG] = 4, [VALUE_POINTER] = 1, [PARTS_LOW] = 4,
    [PARTS_HIGH] = 4, [PART] = 4, [LABELS] = 2, [LABEL_NAME] = 1, [LABEL_ID] = 1, [SENSITIVE] = 2, [PROPERTIES] = 2,
};

struct walker {
    uint8_t due, next, kind, is_row, with_nulls, types, got, head_length;
    uint32_t number;
    uint64_t run;               /* bytes that are passed over, before `next` */
    uint64_t start, at;         /* where the token begins, and where the walk is */
    uint16_t left, count, column, parts, change_left;
    struct column shape;
    uint8_t head[16];           /* the first bytes of the token: what is told of it */
    uint8_t nulls[MOST_COLUMNS / 8];
    struct column columns[MOST_COLUMNS];
};

struct token { uint8_t kind; uint64_t start, length, rows; };

#ifdef WITH_PLACES
/* Where each value stands of the row that the walk is in, or has passed last; and where the walk is in its piece. */
static struct { uint64_t start, length; uint8_t null; } places[MOST_COLUMNS];
static uint64_t here;
#define HERE(place) (here = (place))
#define STANDS(w, many, is_null) \
    ((void)((w)->is_row && (places[(w)->column].start = here, places[(w)->column].length = (many), places[(w)->column].null = (is_null))))
#define GOES_ON(w, many) ((void)((w)->is_row && (places[(w)->column].length += (many))))
#else
#define HERE(place) ((void)0)
#define STANDS(w, many, is_null) ((void)0)
#define GOES_ON(w, many) ((void)0)
#endif

static int behind_run(struct walker *w, uint8_t next);

static void expect(struct walker *w, uint8_t due) { w->due = due; w->number = 0; w->got = 0; }

static int pass(struct walker *w, uint64_t count, uint8_t next)
{
    if (count == 0)
        return behind_run(w, next);
    w->run = count;
    w->next = next;
    return 0;
}

/* What is due of a value of this shape. */
static int begin_value(struct walker *w, struct column column)
{
    static const uint8_t due[] = { [BYTE_COUNT] = VALUE_BYTE, [SHORT_COUNT] = VALUE_SHORT, [LONG_COUNT] = VALUE_LONG,
                                   [POINTER] = VALUE_POINTER, [PARTS] = PARTS_LOW };
    if (column.shape == FIXED) {
        STANDS(w, column.size, 0);
        return pass(w, column.size, VALUED);
    }
    expect(w, due[column.shape]);
    return 0;
}

/* Goes on in a row, with the first column from this one on that has bytes. */
static int go_in_row(struct walker *w)
{
    for (; w->column < w->count; w->column++) {
        struct column column = w->columns[w->column];
        if ((w->with_nulls && w->nulls[w->column >> 3] >> (w->column & 7) & 1) || (column.shape == FIXED && column.size == 0)) {
            STANDS(w, 0, 1);
            continue;
        }
        return begin_value(w, column);
    }
    expect(w, TOKEN);
    return 1;
}

static int end_value(struct walker *w)
{
    if (w->is_row) {
        w->column++;
        return go_in_row(w);
    }
    expect(w, TOKEN);
    return 1;
}

static int end_type(struct walker *w)
{
    if (w->kind == 0xAC) {
        if (w->shape.shape == FIXED && w->shape.size == 0)
            return end_value(w);
        return begin_value(w, w->shape);
    }
    w->columns[w->count++] = w->shape;
    expect(w, w->shape.shape == POINTER ? TABLE_PARTS : COLUMN_NAME);
    return 0;
}

static int begin_column(struct walker *w)
{
    if (w->left == 0) {
        expect(w, TOKEN);
        return 1;
    }
    return pass(w, 6, TYPE);
}

static int end_labels(struct walker *w)
{
    if (w->types) {
        expect(w, SENSITIVE);
    } else {
        w->types = 1;
        expect(w, LABELS);
    }
    return 0;
}

/* What comes behind a run of bytes: 1 where the token ends, negative a fault. */
static int behind_run(struct walker *w, uint8_t next)
{
    switch (next) {
    case ENDED: expect(w, TOKEN); return 1;
    case DESCRIBED: return end_type(w);
    case PARTED: expect(w, --w->parts ? TABLE_PART : COLUMN_NAME); return 0;
    case NAMED: w->left--; return begin_column(w);
    case VALUED: return end_value(w);
    case LABELLED:
        if (--w->left == 0)
            return end_labels(w);
        expect(w, LABEL_NAME);
        return 0;
    case CLASSIFIED:
        if (--w->left == 0) {
            expect(w, TOKEN);
            return 1;
        }
        expect(w, PROPERTIES);
        return 0;
    default: expect(w, next); return 0;
    }
}

static int typed(struct walker *w, uint8_t shape, uint8_t size, uint64_t count)
{
    w->shape = (struct column){ shape, size };
    return pass(w, count, DESCRIBED);
}

static int take_type(struct walker *w, uint32_t type)
{
    switch (type) {
    case 0x1F: return typed(w, FIXED, 0, 0);
    case 0x30: case 0x32: return typed(w, FIXED, 1, 0);
    case 0x34: return typed(w, FIXED, 2, 0);
    case 0x38: case 0x3A: case 0x3B: case 0x7A: return typed(w, FIXED, 4, 0);
    case 0x3C: case 0x3D: case 0x3E: case 0x7F: return typed(w, FIXED, 8, 0);
    case 0x24: case 0x26: case 0x68: case 0x6D: case 0x6E: case 0x6F: case 0x29: case 0x2A: case 0x2B:
    case 0x25: case 0x27: case 0x2D: case 0x2F: return typed(w, BYTE_COUNT, 0, 1);
    case 0x37: case 0x3F: case 0x6A: case 0x6C: return typed(w, BYTE_COUNT, 0, 3);
    case 0x28: return typed(w, BYTE_COUNT, 0, 0);
    case 0xA5: case 0xAD: expect(w, MAX_LENGTH); return 0;
    case 0xA7: case 0xAF: case 0xE7: case 0xEF: expect(w, MAX_LENGTH_COLLATED); return 0;
    case 0x22: return typed(w, POINTER, 0, 4);
    case 0x23: case 0x63: return typed(w, POINTER, 0, 9);
    case 0x62: return typed(w, LONG_COUNT, 0, 4);
    case 0xF1: w->shape = (struct column){ PARTS, 0 }; expect(w, SCHEMA); return 0;
    case 0xF0: w->shape = (struct column){ PARTS, 0 }; return pass(w, 2, UDT_DATABASE);
    default: return -3;
    }
}

static int begin_token(struct walker *w, uint32_t kind)
{
    w->kind = kind;
    w->is_row = 0;
    w->head_length = 0;
    switch (kind) {
    case 0xA4: case 0xA5: case 0xA9: case 0xAA: case 0xAB: case 0xAD: case 0xED: expect(w, LENGTH); return 0;
    case 0xFD: case 0xFE: case 0xFF: return pass(w, 12, ENDED);
    case 0xD1:
        w->is_row = 1;
        w->with_nulls = 0;
        w->column = 0;
        return w->count ? go_in_row(w) : -2;
    case 0xD2:
        w->is_row = 1;
        w->with_nulls = 1;
        w->column = 0;
        expect(w, NULLS);
        return w->count ? 0 : -2;
    case 0x81: expect(w, COLUMNS); return 0;
    case 0xE3: expect(w, CHANGE_LENGTH); return 0;
    case 0x79: return pass(w, 4, ENDED);
    case 0xAC: return pass(w, 2, PARAMETER_NAME);
    case 0xE4: case 0xEE: expect(w, LONG_LENGTH); return 0;
    case 0xAE: expect(w, FEATURE); return 0;
    case 0xA3: w->types = 0; expect(w, LABELS); return 0;
    default: return -1;
    }
}

/* Takes a number that has come. */
static int arrive(struct walker *w, uint8_t due, uint32_t n)
{
    switch (due) {
    case TOKEN: return begin_token(w, n);
    case LENGTH: case LONG_LENGTH: case PROMOTED_OLD: return pass(w, n, ENDED);
    case CHANGE_LENGTH: w->change_left = n; return n ? (expect(w, CHANGE), 0) : behind_run(w, ENDED);
    case CHANGE:
        w->head[0] = n;
        w->head_length = 1;
        return n == 15 ? (expect(w, PROMOTED), 0) : pass(w, w->change_left - 1, ENDED);
    case PROMOTED: return pass(w, n, PROMOTED_OLD);
    case FEATURE: return n == 255 ? behind_run(w, ENDED) : (expect(w, FEATURE_LENGTH), 0);
    case FEATURE_LENGTH: return pass(w, n, FEATURE);
    case COLUMNS:
        if (n == 0xFFFF)
            return behind_run(w, ENDED);
        if (n > MOST_COLUMNS)
            return -4;
        w->count = 0;
        w->left = n;
        return begin_column(w);
    case PARAMETER_NAME: return pass(w, 2 * n + 7, TYPE);
    case TYPE: return take_type(w, n);
    case MAX_LENGTH: return typed(w, n == 0xFFFF ? PARTS : SHORT_COUNT, 0, 0);
    case MAX_LENGTH_COLLATED: return typed(w, n == 0xFFFF ? PARTS : SHORT_COUNT, 0, 5);
    case SCHEMA: return n ? (expect(w, XML_DATABASE), 0) : end_type(w);
    case XML_DATABASE: return pass(w, 2 * n, XML_OWNER);
    case XML_OWNER: return pass(w, 2 * n, XML_COLLECTION);
    case XML_COLLECTION: case UDT_ASSEMBLY: return pass(w, 2 * n, DESCRIBED);
    case UDT_DATABASE: return pass(w, 2 * n, UDT_SCHEMA);
    case UDT_SCHEMA: return pass(w, 2 * n, UDT_NAME);
    case UDT_NAME: return pass(w, 2 * n, UDT_ASSEMBLY);
    case TABLE_PARTS: w->parts = n; expect(w, n ? TABLE_PART : COLUMN_NAME); return 0;
    case TABLE_PART: return pass(w, 2 * n, PARTED);
    case COLUMN_NAME: return pass(w, 2 * n, NAMED);
    case NULLS:
        w->nulls[w->column] = n;
        if (8u * ++w->column < w->count) {
            expect(w, NULLS);
            return 0;
        }
        w->column = 0;
        return go_in_row(w);
    case VALUE_BYTE: STANDS(w, n, n == 0); return pass(w, n, VALUED);
    case VALUE_SHORT: STANDS(w, n == 0xFFFF ? 0 : n, n == 0xFFFF); return n == 0xFFFF ? end_value(w) : pass(w, n, VALUED);
    case VALUE_LONG: STANDS(w, n == 0xFFFFFFFF ? 0 : n, n == 0xFFFFFFFF); return n == 0xFFFFFFFF ? end_value(w) : pass(w, n, VALUED);
    case VALUE_POINTER: STANDS(w, 0, 1); return n ? pass(w, n + 8, VALUE_LONG) : end_value(w);
    case PARTS_LOW: w->parts = n == 0xFFFFFFFF; expect(w, PARTS_HIGH); return 0;
    case PARTS_HIGH:
        STANDS(w, 0, w->parts && n == 0xFFFFFFFF);
        return w->parts && n == 0xFFFFFFFF ? end_value(w) : (expect(w, PART), 0);
    case PART:
        if (n == 0)
            return end_value(w);
        GOES_ON(w, n + 4);
        return pass(w, n, PART);
    case LABELS: w->left = n; return n ? (expect(w, LABEL_NAME), 0) : end_labels(w);
    case LABEL_NAME: return pass(w, 2 * n, LABEL_ID);
    case LABEL_ID: return pass(w, 2 * n, LABELLED);
    case SENSITIVE: w->left = n; return n ? (expect(w, PROPERTIES), 0) : behind_run(w, ENDED);
    default: return pass(w, 4ull * n, CLASSIFIED); /* PROPERTIES */
    }
}

/* Keeps the first bytes of a token. */
static void keep(struct walker *w, const uint8_t *bytes, size_t count)
{
    size_t room = sizeof w->head - w->head_length, more = count < room ? count : room;
    memcpy(w->head + w->head_length, bytes, more);
    w->head_length += more;
}

static uint32_t number_of(const uint8_t *bytes, unsigned width)
{
    if (width == 1)
        return bytes[0];
    if (width == 2)
        return bytes[0] | (uint32_t)bytes[1] << 8;
    return bytes[0] | (uint32_t)bytes[1] << 8 | (uint32_t)bytes[2] << 16 | (uint32_t)bytes[3] << 24;
}

/* Takes bytes up to the end of one token. Gives how many; `token->kind` is 0 where none ended. Negative: a fault. */
static long feed(struct walker *w, const uint8_t *bytes, size_t count, struct token *token)
{
    size_t done = 0;
    int ended = 0;
    token->kind = 0;
    while (done < count && !ended) {
        if (w->run) {
            size_t step = w->run < count - done ? w->run : count - done;
            if (w->kind >= 0xFD || w->kind == 0xE3)
                keep(w, bytes + done, step);
            w->run -= step;
            done += step;
            HERE(w->at + done);
            ended = w->run ? 0 : behind_run(w, w->next);
            continue;
        }
        unsigned width = width_of[w->due];
        if (w->got == 0 && count - done >= width) {
            uint32_t number = number_of(bytes + done, width);
            done += width;
            HERE(w->at + done);
            ended = arrive(w, w->due, number);
        } else {
            w->number |= (uint32_t)bytes[done++] << 8 * w->got++;
            HERE(w->at + done);
            if (w->got == width)
                ended = arrive(w, w->due, w->number);
        }
    }
    w->at += done;
    if (ended < 0)
        return ended;
    if (ended) {
        *token = (struct token){ w->kind, w->start, w->at - w->start, 0 };
        if (w->kind >= 0xFD)
            memcpy(&token->rows, w->head + 4, 8);
        w->start = w->at;
    }
    return (long)done;
}

static void restart(struct walker *w)
{
    w->count = w->run = w->start = w->at = 0;
    expect(w, TOKEN);
}

#ifndef WALK_ALONE
struct sums { uint64_t tokens, lengths, rows; };

/* Walks a piece of data. */
static int walk(struct walker *w, const uint8_t *bytes, size_t count, struct sums *sums)
{
    while (count) {
        struct token token;
        long used = feed(w, bytes, count, &token);
        if (used < 0)
            return (int)used;
        bytes += used;
        count -= used;
        if (token.kind) {
            sums->tokens++;
            sums->lengths += token.length;
            sums->rows += token.rows;
        }
    }
    return 0;
}

/* Walks a piece of packets (MS-TDS 2.2.3.1). */
static int walk_packets(struct walker *w, const uint8_t *bytes, size_t count, struct sums *sums)
{
    static uint8_t header[8];
    static size_t got, left;
    while (count) {
        if (left == 0) {
            header[got++] = *bytes++;
            count--;
            if (got < 8)
                continue;
            got = 0;
            left = (size_t)header[2] << 8 | header[3];
            if (left < 8 || header[0] != 4)
                return -9;
            left -= 8;
            continue;
        }
        size_t part = left < count ? left : count;
        int fault = walk(w, bytes, part, sums);
        if (fault)
            return fault;
        bytes += part;
        count -= part;
        left -= part;
    }
    return 0;
}

int main(int argc, char **argv)
{
    static struct walker walker;
    FILE *file = argc == 4 || argc == 5 ? fopen(argv[1], "rb") : NULL;
    if (!file) {
        fprintf(stderr, "usage: plain_wire FILE PIECE TIMES [PACKETS]\n");
        return 2;
    }
    fseek(file, 0, SEEK_END);
    size_t size = ftell(file), piece = strtoul(argv[2], NULL, 10), times = strtoul(argv[3], NULL, 10);
    uint8_t *bytes = malloc(size + 1);
    rewind(file);
    if (!bytes || piece == 0 || fread(bytes, 1, size, file) != size)
        return 2;
    struct sums sums = { 0, 0, 0 };
    while (times--) {
        restart(&walker);
        for (size_t at = 0; at < size; at += piece) {
            size_t count = size - at < piece ? size - at : piece;
            int fault = (argc == 5 ? walk_packets : walk)(&walker, bytes + at, count, &sums);
            if (fault) {
                printf("fault %d at %llu\n", -fault, (unsigned long long)walker.at - 1);
                return 1;
            }
        }
    }
    printf("%llu %llu %llu\n", (unsigned long long)sums.tokens, (unsigned long long)sums.lengths,
           (unsigned long long)sums.rows);
    return 0;
}
#endif
