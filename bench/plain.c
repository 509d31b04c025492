/* The walks of bench_calls in plain C, written for this: they look at every length and number that
 * the proved readers look at, and nothing more. A client isn't part of them.
 *
 * usage: plain WALK FILE SIZE TIMES      prints as calls does
 */
#include <stdint.h>
#include <stdio.h>
#include <stdlib.h>
#include <string.h>

struct counted {
    uint64_t packets, tokens, rows, sum;
};

static void stop(const char *why) {
    fprintf(stderr, "plain: %s\n", why);
    exit(1);
}

/* The length of the packet at the front. */
static inline size_t front(const uint8_t *bytes, size_t length, size_t size) {
    if (length < 8) stop("cut header");
    size_t whole = (size_t)bytes[2] << 8 | bytes[3];
    if (bytes[0] != 4 || bytes[1] > 1 || whole < 8 || whole > size || whole > length) stop("header");
    if (whole == 8 && bytes[1] != 1) stop("empty packet");
    return whole;
}

static inline uint16_t u16(const uint8_t *at) {
    return (uint16_t)(at[0] | at[1] << 8);
}

static inline uint64_t u64(const uint8_t *at) {
    uint64_t value;
    memcpy(&value, at, 8);
    return value;
}

/* What a token takes behind its first byte, where `left` bytes are there; `at` is behind that byte. */
static inline size_t message(const uint8_t *at, size_t left) {
    if (left < 2) stop("cut");
    size_t inside = u16(at), used = 8;
    if (left - 2 < inside || inside < 8) stop("cut");
    used += 2u * u16(at + 2 + 6);
    for (int i = 0; i < 2; i++) {
        if (used + 1 > inside) stop("length");
        used += 1 + 2u * at[2 + used];
    }
    if (used + 4 != inside) stop("length");
    return 2 + inside;
}

static inline size_t columns_of(const uint8_t *at, size_t left, unsigned *columns) {
    size_t used = 2;
    if (left < 2) stop("cut");
    *columns = u16(at);
    if (*columns < 1 || *columns > 16) stop("columns");
    for (unsigned i = 0; i < *columns; i++) {
        if (left < used + 8 || at[used + 6] != 0x38) stop("column");
        used += 8 + 2u * at[used + 7];
        if (left < used) stop("cut");
    }
    return used;
}

static inline size_t change(const uint8_t *at, size_t left) {
    if (left < 2 || left - 2 < u16(at) || u16(at) < 3) stop("change");
    return 2 + (size_t)u16(at);
}

static inline size_t done(const uint8_t *at, size_t left) {
    if (left < 12 || (u16(at) & ~0x0137) != 0) stop("done");
    return 12;
}

/* Walks a packet's data. The rows of the DONEs are summed, or the values of the rows. */
static inline void walk(const uint8_t *at, const uint8_t *end, unsigned *columns, int sums, struct counted *counted) {
    while (at < end) {
        uint8_t kind = *at++;
        size_t left = (size_t)(end - at);
        counted->tokens += 1;
        switch (kind) {
        case 0xD1:
            if (*columns == 0 || left < 4u * *columns) stop("row");
            counted->rows += 1;
            for (unsigned i = 0; sums && i < *columns; i++) {
                uint32_t value;
                memcpy(&value, at + 4u * i, 4);
                counted->sum += value;
            }
            at += 4u * *columns;
            break;
        case 0xAA: case 0xAB: at += message(at, left); break;
        case 0x79:
            if (left < 4) stop("cut");
            at += 4;
            break;
        case 0x81: at += columns_of(at, left, columns); break;
        case 0xE3: at += change(at, left); break;
        case 0xFD:
            at += done(at, left);
            if (!sums) counted->sum += u64(at - 8);
            *columns = 0;
            break;
        default: stop("token");
        }
    }
}

static struct counted walked(const uint8_t *bytes, size_t length, size_t size, int tokens, int sums) {
    struct counted counted = {0, 0, 0, 0};
    unsigned columns = 0;
    while (length > 0) {
        size_t whole = front(bytes, length, size);
        if (tokens) walk(bytes + 8, bytes + whole, &columns, sums, &counted);
        else counted.sum += whole;
        bytes += whole, length -= whole;
        counted.packets += 1;
    }
    return counted;
}

static struct counted packets(const uint8_t *bytes, size_t length, size_t size) {
    return walked(bytes, length, size, 0, 0);
}
static struct counted tokens(const uint8_t *bytes, size_t length, size_t size) {
    return walked(bytes, length, size, 1, 0);
}
static struct counted values(const uint8_t *bytes, size_t length, size_t size) {
    return walked(bytes, length, size, 1, 1);
}

static const struct {
    const char *name;
    struct counted (*walk)(const uint8_t *, size_t, size_t);
} WALKS[] = {{"packets", packets}, {"tokens", tokens}, {"values", values}};

int main(int argc, char **argv) {
    if (argc != 5) return 2;
    FILE *file = fopen(argv[2], "rb");
    if (file == NULL || fseek(file, 0, SEEK_END) != 0) return 2;
    size_t length = (size_t)ftell(file), which = 0;
    uint8_t *bytes = malloc(length + 1);
    rewind(file);
    if (bytes == NULL || fread(bytes, 1, length, file) != length) return 2;
    while (which < sizeof WALKS / sizeof WALKS[0] && strcmp(WALKS[which].name, argv[1]) != 0) which++;
    if (which == sizeof WALKS / sizeof WALKS[0]) return 2;
    for (long times = strtol(argv[4], NULL, 10); times > 0; times--) {
        struct counted c = WALKS[which].walk(bytes, length, (size_t)atoi(argv[3]));
        printf("%llu %llu %llu %llu\n", (unsigned long long)c.packets, (unsigned long long)c.tokens,
               (unsigned long long)c.rows, (unsigned long long)c.sum);
    }
    free(bytes);
    return 0;
}
