/* The same random calls by the library of the release (its names begin with lib_ here) and by the one C file: each answer
 * and all that is written is compared, byte by byte.
 *
 * With -DHASHED there is the one C file alone, and one number is printed of all that it answered and wrote, field by
 * field: it has to be the same on each machine.
 *
 * usage: random_calls ROUNDS [SEED] */
#include "mouktelf.h"
#include <stdio.h>
#include <stdlib.h>
#include <string.h>

#ifndef HASHED
#define ALSO(name, words) extern uint8_t lib_##name words
ALSO(tds_packet_read, (const uint8_t *, size_t, uint16_t, uint8_t, struct tds_packet *));
ALSO(tds_packets_read, (const uint8_t *, size_t, uint16_t, uint8_t, struct tds_packet *, size_t, size_t *));
ALSO(tds_client_new, (uint16_t, struct tds_client *));
ALSO(tds_client_mark_reset, (struct tds_client *, uint8_t));
ALSO(tds_client_start_batch, (struct tds_client *, const uint16_t *, size_t, uint8_t *, size_t, size_t *));
ALSO(tds_client_start_begin, (struct tds_client *, uint8_t, uint8_t *, size_t, size_t *));
ALSO(tds_client_start_commit, (struct tds_client *, uint8_t, uint8_t *, size_t, size_t *));
ALSO(tds_client_start_rollback, (struct tds_client *, uint8_t, uint8_t *, size_t, size_t *));
ALSO(tds_client_send, (struct tds_client *, const uint8_t *, size_t, uint8_t *, size_t, size_t *));
ALSO(tds_client_cancel, (struct tds_client *, uint8_t *, size_t, size_t *));
ALSO(tds_client_take, (struct tds_client *, const uint8_t *, size_t));
ALSO(tds_client_ask, (struct tds_client *, uint8_t, const uint8_t *, size_t, uint8_t *, size_t, size_t *));
ALSO(tds_client_lost, (struct tds_client *));
ALSO(tds_token_next, (const uint8_t *, size_t, struct tds_cursor *, struct tds_token *));
ALSO(tds_tokens_next, (const uint8_t *, size_t, struct tds_cursor *, struct tds_token *, size_t, size_t *));
ALSO(tds_rows_next, (const uint8_t *, size_t, struct tds_cursor *, struct tds_rows *));

#endif

/* What the calls of one side write. */
struct side {
    struct tds_client client;
    struct tds_packet packets[4];
    struct tds_cursor cursor;
    struct tds_token tokens[4];
    struct tds_rows rows;
    size_t count;
    uint8_t message[4100], out[4200];
};
static struct side a, b;

static unsigned long long calls, answers[256];
static uint8_t data[6000];
static size_t length;
static uint16_t text[2100];

static uint64_t state = 88172645463325252ull;
static uint32_t below(uint32_t n) {
    state ^= state << 13, state ^= state >> 7, state ^= state << 17;
    return (uint32_t)((state >> 16) % n);
}

#ifdef HASHED

static uint64_t hash = 14695981039346656037ull;
static void mix(uint64_t value) {
    hash = (hash ^ value) * 1099511628211ull;
}

/* All that a side has, field by field. */
static void mix_all(const struct side *it) {
    const struct tds_client *c = &it->client;
    const uint64_t of_client[] = {c->descriptor, c->sent, c->packets, c->size, c->stage, c->kind, c->fault,
                                  c->token_fault, c->mark, c->done, c->columns};
    for (size_t i = 0; i < sizeof of_client / sizeof *of_client; i++) mix(of_client[i]);
    for (int i = 0; i < 4; i++) {
        const struct tds_packet *p = &it->packets[i];
        const struct tds_token *t = &it->tokens[i];
        mix(p->length), mix(p->kind), mix(p->status);
        mix(t->value), mix(t->start), mix((uint32_t)t->number), mix((uint32_t)t->line), mix(t->status), mix(t->cur_cmd);
        mix(t->kind), mix(t->state), mix(t->severity), mix(t->change);
    }
    mix(it->cursor.at), mix(it->cursor.columns), mix(it->rows.start), mix(it->rows.count), mix(it->rows.columns), mix(it->count);
    for (size_t i = 0; i < 64; i++) mix(it->message[i] | (uint64_t)it->out[i] << 8);
}

#define BOTH(name, of_a, of_b)    \
    do {                          \
        uint8_t x = name of_a;    \
        answers[x]++, calls++;    \
        mix(x), mix_all(&a);      \
    } while (0)

#else

/* On machines with images nothing is written to what lies between two fields. */
#ifndef ONE_IMAGES
#define ONE_IMAGES 0
#endif
static void even_out(struct side *it) {
    memset((uint8_t *)&it->client + 33, 0, 7);
    for (int i = 0; i < 4; i++) memset((uint8_t *)&it->packets[i] + 10, 0, 6);
    memset((uint8_t *)&it->cursor + 9, 0, 7);
}

#define BOTH(name, of_a, of_b)                                                                     \
    do {                                                                                           \
        uint8_t x = lib_##name of_a, y = name of_b;                                                \
        answers[x]++, calls++;                                                                     \
        if (ONE_IMAGES) even_out(&a), even_out(&b);                                                \
        if (x != y || memcmp(&a, &b, sizeof a) != 0) {                                             \
            printf("%s differs: %u and %u, in call %llu\n", #name, (unsigned)x, (unsigned)y, calls); \
            exit(1);                                                                               \
        }                                                                                          \
    } while (0)

#endif

static size_t put(size_t at, uint64_t value, int bytes) {
    for (int i = 0; i < bytes; i++) data[at++] = (uint8_t)(value >> 8 * i);
    return at;
}

/* A line a number: where two stand in one line, a compiler may take either first. */
static size_t put_columns(size_t at, int columns) {
    at = put(at, TDS_COLMETADATA, 1);
    at = put(at, (uint64_t)columns, 2);
    for (int i = 0; i < columns; i++) {
        uint32_t units = below(3);
        at = put(at, 0, 6);
        at = put(at, 0x38, 1);
        at = put(at, units, 1);
        for (uint32_t k = 0; k < units; k++) at = put(at, 'a' + k, 2);
    }
    return at;
}

static size_t put_rows(size_t at, int columns) {
    for (int k = (int)below(5); k >= 0; k--) {
        at = put(at, TDS_ROW, 1);
        for (int i = 0; i < columns; i++) at = put(at, below(100000), 4);
    }
    return at;
}

static size_t put_message(size_t at) {
    uint32_t units = below(5);
    at = put(at, below(2) ? TDS_INFO : TDS_ERROR, 1);
    at = put(at, 12 + 2 * units, 2);
    at = put(at, below(1u << 31), 4);
    at = put(at, below(4), 1);
    at = put(at, below(20), 1);
    at = put(at, units, 2);
    for (uint32_t k = 0; k < units; k++) at = put(at, 'x', 2);
    at = put(at, 0, 2);
    return put(at, below(9), 4);
}

static size_t put_change(size_t at) {
    uint32_t which = below(4);
    at = put(at, TDS_ENVCHANGE, 1);
    at = put(at, which == 3 ? 3 : 11, 2);
    at = put(at, which == 3 ? TDS_RESET_DONE : TDS_BEGIN + which, 1);
    if (which == 3) return put(at, 0, 2);
    if (which != 0) at = put(at, 0, 1);
    at = put(at, 8, 1);
    at = put(at, 1 + below(5), 8);
    return which == 0 ? put(at, 0, 1) : at;
}

static size_t put_done(size_t at) {
    static const uint16_t likely[] = {0, 0x10, 0x10, 0, 1, 1, 0x20};
    uint32_t which = below(8);
    at = put(at, TDS_DONE, 1);
    at = put(at, which < 7 ? likely[which] : below(0x200), 2);
    at = put(at, below(300), 2);
    return put(at, below(1000), 8);
}

/* A packet of likely tokens, and then perhaps some bytes spoilt, or too few or too many. */
static void make(void) {
    size_t at = 8;
    int columns = 0;
    for (int k = (int)below(6); k >= 0; k--) switch (below(9)) {
        case 0: at = put(at, TDS_RETURNSTATUS, 1), at = put(at, below(1000), 4); break;
        case 1: columns = 1 + (int)below(8), at = put_columns(at, columns); break;
        case 2:
        case 3: if (columns) at = put_rows(at, columns);
            break;
        case 4: at = put_message(at); break;
        case 5: at = put_change(at); break;
        default: at = put_done(at); break;
        }
    if (below(8) == 0) at = 8 + below((uint32_t)at - 7);
    put(0, 0, 8);
    data[0] = (uint8_t)(below(30) ? 4 : below(256));
    data[1] = (uint8_t)(below(4) ? 1 : below(3) ? 0 : below(256));
    data[2] = (uint8_t)(at >> 8), data[3] = (uint8_t)at, data[6] = 1;
    length = at;
    if (below(6) == 0)
        for (int k = (int)below(3); k >= 0; k--) {
            uint32_t place = below((uint32_t)at);
            data[place] = (uint8_t)below(256);
        }
    if (below(12) == 0) length = below((uint32_t)at + 1);
    if (below(12) == 0) length += below(12);
}

static void start(void) {
    uint8_t level = (uint8_t)(below(3) ? below(7) : 255);
    size_t room = below(5) ? sizeof a.message : below(sizeof a.message), units;
    switch (below(4)) {
    case 0: BOTH(tds_client_start_begin, (&a.client, level, a.message, room, &a.count), (&b.client, level, b.message, room, &b.count)); break;
    case 1: BOTH(tds_client_start_commit, (&a.client, level, a.message, room, &a.count), (&b.client, level, b.message, room, &b.count)); break;
    case 2: BOTH(tds_client_start_rollback, (&a.client, level, a.message, room, &a.count), (&b.client, level, b.message, room, &b.count)); break;
    default:
        units = below(4) ? below(30) : below(2) ? below(2100) : 1999 + below(3);
        BOTH(tds_client_start_batch, (&a.client, text, units, a.message, room, &a.count), (&b.client, text, units, b.message, room, &b.count));
    }
}

/* Of bytes that are anyone's, mostly a message that a packet has whole. */
static void ask(void) {
    static const uint8_t kinds[] = {TDS_MESSAGE_BATCH, TDS_MESSAGE_RPC, TDS_MESSAGE_BULK, TDS_MESSAGE_TRANSACTION};
    uint8_t kind = below(9) ? kinds[below(4)] : (uint8_t)below(20);
    size_t bytes = below(4) ? below(480) : below(4100), room = below(5) ? sizeof a.out : below(600);
    BOTH(tds_client_ask, (&a.client, kind, data, bytes, a.out, room, &a.count), (&b.client, kind, data, bytes, b.out, room, &b.count));
}

static void send_one(void) {
    static size_t last;
    size_t bytes = below(9) ? (a.count <= 4022 ? a.count : 0) : below(4022), room = below(6) ? sizeof a.out : below(700);
    if (a.client.stage == TDS_SENDING && a.client.sent == 0) last = bytes;
    if (below(9)) bytes = last;
    BOTH(tds_client_send, (&a.client, a.message, bytes, a.out, room, &a.count), (&b.client, b.message, bytes, b.out, room, &b.count));
}

static void read_packets(void) {
    uint16_t size = (uint16_t)(below(5) ? 512 + below(4096) : below(65536));
    uint8_t direction = (uint8_t)(below(4) ? 1 : below(4));
    size_t room = below(5);
    make();
    BOTH(tds_packet_read, (data, length, size, direction, a.packets), (data, length, size, direction, b.packets));
    if (length < 600) memcpy(data + length, data, length), length *= 2;
    BOTH(tds_packets_read, (data, length, size, 1, a.packets, room, &a.count), (data, length, size, 1, b.packets, room, &b.count));
}

static void read_tokens(void) {
    size_t room = below(5), bytes;
    make();
    bytes = length > 8 ? length - 8 : 0;
    a.cursor.at = b.cursor.at = below(20) ? 0 : below(300);
    a.cursor.columns = b.cursor.columns = (uint8_t)(below(3) ? 0 : below(2) ? below(10) : below(256));
    for (int k = 0; k < 4; k++) {
        BOTH(tds_rows_next, (data + 8, bytes, &a.cursor, &a.rows), (data + 8, bytes, &b.cursor, &b.rows));
        BOTH(tds_token_next, (data + 8, bytes, &a.cursor, a.tokens), (data + 8, bytes, &b.cursor, b.tokens));
        BOTH(tds_tokens_next, (data + 8, bytes, &a.cursor, a.tokens, room, &a.count), (data + 8, bytes, &b.cursor, b.tokens, room, &b.count));
    }
}

/* A value that no client has, now and then. */
static void spoil(void) {
    size_t at = below(40);
    uint8_t byte = (uint8_t)(below(2) ? below(256) : below(6));
    if (below(6) != 0) return;
#ifdef HASHED
    /* Where a field lies is another place on another machine. */
    (void)at;
    a.client.stage = byte;
#else
    ((uint8_t *)&a.client)[at] = ((uint8_t *)&b.client)[at] = byte;
#endif
}

static void one(void) {
    uint16_t size = (uint16_t)(below(3) ? 512 + below(1000) : below(65536));
    uint8_t reset = (uint8_t)below(4);
    size_t room = below(4) ? 16 : below(10);
    switch (below(22)) {
    case 0: BOTH(tds_client_new, (size, &a.client), (size, &b.client)); break;
    case 1: BOTH(tds_client_mark_reset, (&a.client, reset), (&b.client, reset)); break;
    case 2: case 3: case 4:
        if (below(4)) start();
        else ask();
        break;
    case 5: case 6: case 7: case 8: send_one(); break;
    case 9: BOTH(tds_client_cancel, (&a.client, a.out, room, &a.count), (&b.client, b.out, room, &b.count)); break;
    case 10: case 11: case 12: case 13: case 14:
        make();
        BOTH(tds_client_take, (&a.client, data, length), (&b.client, data, length));
        break;
    case 15:
        if (below(10) == 0) BOTH(tds_client_lost, (&a.client), (&b.client));
        break;
    case 16: case 17: read_packets(); break;
    case 18: case 19: case 20: read_tokens(); break;
    default: spoil();
    }
    if (a.client.stage == TDS_BROKEN && below(3) == 0) BOTH(tds_client_new, (512, &a.client), (512, &b.client));
}

int main(int argc, char **argv) {
    long rounds = argc > 1 ? atol(argv[1]) : 100000, kinds = 0;
    if (argc > 2) state ^= strtoull(argv[2], NULL, 10) * 0x9E3779B97F4A7C15ull;
    for (size_t i = 0; i < sizeof text / sizeof *text; i++) text[i] = (uint16_t)below(65536);
    BOTH(tds_client_new, (512, &a.client), (512, &b.client));
    for (long i = 0; i < rounds; i++) one();
    for (int i = 0; i < 256; i++) kinds += answers[i] != 0;
#ifdef HASHED
    printf("%llu calls, %ld answers: %016llx\n", calls, kinds, (unsigned long long)hash);
#else
    printf("%llu calls, %ld answers, the same\n", calls, kinds);
#endif
    return 0;
}
