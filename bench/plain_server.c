/* The walks `serve` and `served` of bench_calls (tests/crates/bench_calls/src/serving.rs) in plain C, written
 * for this: it reads the requests that `streams` wrote, knows the statements that stand in them and
 * no others, and writes the bytes that the server of the batch language answers (docs/SCHEDULES.md).
 * It cancels nothing, keeps nothing between packets but a session, and takes no memory.
 *
 * usage: plain_server WALK FILE SIZE TIMES      prints as calls does
 */
#include <stdint.h>
#include <stdio.h>
#include <stdlib.h>
#include <string.h>

struct counted {
    uint64_t packets, tokens, rows, sum;
};

static struct session {
    uint64_t open, next; /* the descriptor of the open transaction, 0 for none, and of the next one */
    int32_t values[26];
} session;

static uint8_t out[4096], *at;

static void stop(const char *why) {
    fprintf(stderr, "plain_server: %s\n", why);
    exit(1);
}

static inline void put(const void *bytes, size_t length) {
    memcpy(at, bytes, length);
    at += length;
}

static inline void put_done(uint16_t status, uint64_t rows) {
    *at++ = 0xFD;
    put(&status, 2), put("\0", 2), put(&rows, 8);
}

/* Writes the header of the packet that begins here and ends at `at`. */
static inline void close_packet(uint8_t *header, uint8_t ends, uint8_t number, struct counted *counted) {
    size_t whole = (size_t)(at - header);
    uint8_t bytes[8] = {4, ends, (uint8_t)(whole >> 8), (uint8_t)whole, 0, 0, number, 0};
    memcpy(header, bytes, 8);
    counted->tokens += 1;
}

/* ---- The statements */

struct text {
    const uint8_t *at, *end; /* units of UTF-16 */
};

/* Takes this word off of the front, if it is there. */
static inline int takes(struct text *text, const char *word, size_t units) {
    if ((size_t)(text->end - text->at) < 2 * units) return 0;
    for (size_t i = 0; i < units; i++)
        if (text->at[2 * i] != (uint8_t)word[i] || text->at[2 * i + 1] != 0) return 0;
    text->at += 2 * units;
    return 1;
}

static uint32_t take_number(struct text *text, uint32_t most) {
    uint32_t number = 0;
    if (text->at == text->end) stop("number");
    while (text->at < text->end && text->at[1] == 0 && text->at[0] >= '0' && text->at[0] <= '9') {
        number = 10 * number + (text->at[0] - '0');
        if (number > most) stop("number");
        text->at += 2;
    }
    return number;
}

static void say(struct text text) {
    size_t length = (size_t)(text.end - text.at);
    uint16_t inside = (uint16_t)(14 + length), units = (uint16_t)(length / 2);
    int32_t number = 50000;
    if (units < 1 || units > 200) stop("word");
    for (const uint8_t *unit = text.at; unit < text.end; unit += 2)
        if (unit[1] != 0 || !((unit[0] | 32) >= 'a' && (unit[0] | 32) <= 'z') == !(unit[0] >= '0' && unit[0] <= '9')) stop("letter");
    *at++ = 0xAB;
    put(&inside, 2), put(&number, 4), put("\1\0", 2), put(&units, 2), put(text.at, length), put("\0\0\0\0\0", 6);
    put_done(1, 0);
}

static void rows(struct text text) {
    uint32_t first = take_number(&text, 1000000);
    if (!takes(&text, " ", 1)) stop("space");
    uint32_t count = take_number(&text, 64);
    if (text.at != text.end) stop("end");
    put("\x81\1\0\0\0\0\0\0\0\x38\1n\0", 13);
    for (uint32_t value = first; value < first + count; value++) {
        *at++ = 0xD1;
        put(&value, 4);
    }
    put_done(0x11, count);
}

static void get(struct text text) {
    if (text.end - text.at != 2 || text.at[0] < 'a' || text.at[0] > 'z' || text.at[1] != 0) stop("key");
    *at++ = 0x79;
    put(&session.values[text.at[0] - 'a'], 4);
    put_done(1, 0);
}

static void batch(struct text text, struct counted *counted) {
    uint8_t *header = at;
    at += 8;
    if (takes(&text, "say ", 4)) say(text);
    else if (takes(&text, "rows ", 5)) rows(text);
    else if (takes(&text, "get ", 4)) get(text);
    else stop("statement");
    close_packet(header, 0, 1, counted);
    header = at, at += 8;
    put_done(0, 0);
    close_packet(header, 1, 2, counted);
}

/* Begin (5) and commit (7), each in the transaction that the request names (MS-TDS 2.2.6.9). */
static void transaction(uint64_t named, const uint8_t *body, size_t length, struct counted *counted) {
    uint8_t *header = at;
    at += 8;
    if (named != session.open) stop("descriptor");
    if (length == 4 && body[0] == 5 && body[1] == 0 && body[2] <= 5 && body[3] == 0 && session.open == 0) {
        session.open = session.next++;
        put("\xE3\x0B\0\x08\x08", 5), put(&session.open, 8), put("", 1);
    } else if (length == 4 && body[0] == 7 && body[1] == 0 && body[2] == 0 && body[3] == 0 && session.open != 0) {
        put("\xE3\x0B\0\x09\0\x08", 6), put(&session.open, 8);
        session.open = 0;
    } else
        stop("transaction");
    put_done(0, 0);
    close_packet(header, 1, 1, counted);
}

/* Answers the request at the front, and gives its length. */
static inline size_t answer(const uint8_t *bytes, size_t length, size_t size, struct counted *counted) {
    static const uint8_t headers[10] = {22, 0, 0, 0, 18, 0, 0, 0, 2, 0};
    uint64_t descriptor;
    if (length < 8) stop("cut header");
    size_t whole = (size_t)bytes[2] << 8 | bytes[3];
    if ((bytes[0] != 1 && bytes[0] != 14) || bytes[1] != 1 || whole < 8 + 22 || whole > size || whole > length) stop("header");
    const uint8_t *data = bytes + 8, *body = data + 22, *end = bytes + whole;
    if (memcmp(data, headers, 10) != 0 || memcmp(data + 18, "\1\0\0", 4) != 0) stop("headers");
    memcpy(&descriptor, data + 10, 8);
    at = out;
    if (bytes[0] == 1) {
        if (descriptor != session.open || (end - body) % 2 != 0 || end == body) stop("batch");
        batch((struct text){body, end}, counted);
    } else
        transaction(descriptor, body, (size_t)(end - body), counted);
    return whole;
}

static struct counted walked(const uint8_t *bytes, size_t length, size_t size, int looks) {
    struct counted counted = {0, 0, 0, 0};
    session = (struct session){0, 1, {0}};
    while (length > 0) {
        size_t whole = answer(bytes, length, size, &counted);
        counted.packets += 1;
        if (looks)
            for (uint8_t *byte = out; byte < at; byte++) counted.sum = 31 * counted.sum + *byte;
        else
            counted.sum += (uint64_t)(at - out);
        bytes += whole, length -= whole;
    }
    return counted;
}

static struct counted serve(const uint8_t *bytes, size_t length, size_t size) {
    return walked(bytes, length, size, 0);
}
static struct counted served(const uint8_t *bytes, size_t length, size_t size) {
    return walked(bytes, length, size, 1);
}

static const struct {
    const char *name;
    struct counted (*walk)(const uint8_t *, size_t, size_t);
} WALKS[] = {{"serve", serve}, {"served", served}};

int main(int argc, char **argv) {
    if (argc != 5) return 2;
    FILE *file = fopen(argv[2], "rb");
    if (file == NULL || fseek(file, 0, SEEK_END) != 0) return 2;
    size_t length = (size_t)ftell(file), which = 0;
    uint8_t *bytes = malloc(length + 1);
    rewind(file);
    if (bytes == NULL || fread(bytes, 1, length, file) != length) return 2;
    while (which < sizeof WALKS / sizeof WALKS[0] && strcmp(WALKS[which].name, argv[1]) != 0) which++;
    if (which == sizeof WALKS / sizeof WALKS[0]) return 2;
    for (long times = strtol(argv[4], NULL, 10); times > 0; times--) {
        struct counted c = WALKS[which].walk(bytes, length, (size_t)atoi(argv[3]));
        printf("%llu %llu %llu %llu\n", (unsigned long long)c.packets, (unsigned long long)c.tokens,
               (unsigned long long)c.rows, (unsigned long long)c.sum);
    }
    free(bytes);
    return 0;
}
