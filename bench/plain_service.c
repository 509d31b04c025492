/* The exchanges of tests/crates/test_listen/src/exchanging.rs in plain C: a table of connections, of which one is leased, asked,
 * heard and given back. The walk is the one of plain_wire.c; a request is put together in the connection's own packet, and
 * what the server's tokens change is followed: the transaction, a reset that was asked for, an answer's end (MS-TDS 2.2.7).
 *
 * usage: plain_service TIMES      prints the bytes of all requests, and how many tokens were told
 */
#define WALK_ALONE
#include "plain_wire.c"

enum { MOST = 64, SIZE = 4096 };

enum state { ABSENT, FREE, LENT, ASKING, AWAITING, CANCELLING };

static struct seat {
    uint8_t state, asks_reset, awaits_reset;
    uint64_t number, lease, request, descriptor;
    size_t filled;
    uint8_t packet[SIZE];
    struct walker walker;
} seats[MOST];

static uint64_t given;

static struct bytes { uint8_t bytes[8192]; size_t count; } out;

static struct told { struct token tokens[64]; size_t count; } told;

static void stop(const char *why)
{
    fprintf(stderr, "plain_service: %s\n", why);
    exit(1);
}

static struct seat *lent(uint64_t lease)
{
    for (int i = 0; i < MOST; i++)
        if (seats[i].state >= LENT && seats[i].lease == lease)
            return &seats[i];
    return NULL;
}

static struct seat *numbered(uint64_t number)
{
    for (int i = 0; i < MOST; i++)
        if (seats[i].state != ABSENT && seats[i].number == number)
            return &seats[i];
    return NULL;
}

/* Lends a connection that is free, or begins one. */
static struct seat *lease(void)
{
    struct seat *absent = NULL;
    for (int i = 0; i < MOST; i++) {
        struct seat *seat = &seats[i];
        if (seat->state == FREE) {
            seat->state = LENT;
            seat->lease = ++given;
            return seat;
        }
        if (seat->state == ABSENT && !absent)
            absent = seat;
    }
    if (!absent)
        return NULL;
    absent->state = LENT;
    absent->lease = ++given;
    absent->number = ++given;
    absent->asks_reset = 0;
    absent->descriptor = absent->request = 0;
    restart(&absent->walker);
    return absent;
}

static void flush(struct seat *seat, int ends)
{
    uint8_t *header = seat->packet;
    if (out.count + seat->filled > sizeof out.bytes)
        stop("room");
    header[0] = 1;
    header[1] = (uint8_t)(ends | (seat->asks_reset ? 8 : 0));
    header[2] = (uint8_t)(seat->filled >> 8);
    header[3] = (uint8_t)seat->filled;
    header[4] = header[5] = header[7] = 0;
    header[6]++;
    memcpy(out.bytes + out.count, seat->packet, seat->filled);
    out.count += seat->filled;
    seat->filled = 8;
    if (seat->asks_reset)
        seat->asks_reset = 0, seat->awaits_reset = 1;
}

/* Begins a batch, in the transaction that the server named last (MS-TDS 2.2.6.7, 2.2.5.3). */
static int ask(uint64_t lease)
{
    static const uint8_t headers[22] = { 22, 0, 0, 0, 18, 0, 0, 0, 2, 0, [18] = 1 };
    struct seat *seat = lent(lease);
    if (!seat || seat->state != LENT)
        return 0;
    memcpy(seat->packet + 8, headers, sizeof headers);
    memcpy(seat->packet + 18, &seat->descriptor, 8);
    seat->packet[6] = 0;
    seat->filled = 30;
    seat->request++;
    seat->state = ASKING;
    return 1;
}

static int put(uint64_t lease, const void *bytes, size_t count)
{
    struct seat *seat = lent(lease);
    if (!seat || seat->state != ASKING)
        return 0;
    for (const uint8_t *at = bytes; count;) {
        size_t part = SIZE - seat->filled < count ? SIZE - seat->filled : count;
        memcpy(seat->packet + seat->filled, at, part);
        seat->filled += part;
        at += part;
        count -= part;
        if (count)
            flush(seat, 0);
    }
    return 1;
}

static int finish(uint64_t lease)
{
    struct seat *seat = lent(lease);
    if (!seat || seat->state != ASKING)
        return 0;
    flush(seat, 1);
    seat->state = AWAITING;
    return 1;
}

/* What a change of the environment means for the connection; whether it is told. */
static int change(struct seat *seat, const uint8_t *head)
{
    switch (head[0]) {
    case 8: case 11:
        if (head[1] != 8)
            stop("descriptor");
        memcpy(&seat->descriptor, head + 2, 8);
        return 1;
    case 9: case 10: case 17: seat->descriptor = 0; return 1;
    case 18:
        if (!seat->awaits_reset)
            stop("reset");
        seat->awaits_reset = 0;
        seat->descriptor = 0;
        return 0;
    default: return 1;
    }
}

/* Takes a packet's data: 1 where the answer has ended with it. */
static int came(uint64_t number, const uint8_t *bytes, size_t count, int ends)
{
    struct seat *seat = numbered(number);
    int final = 0;
    if (!seat || seat->state != AWAITING)
        return -1;
    while (count) {
        struct token token;
        long used = feed(&seat->walker, bytes, count, &token);
        if (used < 0)
            return -1;
        bytes += used;
        count -= used;
        if (!token.kind)
            continue;
        if (token.kind == 0xE3 && !change(seat, seat->walker.head))
            continue;
        if (token.kind >= 0xFD)
            final = !(seat->walker.head[0] & 1);
        if (told.count == 64)
            stop("told");
        told.tokens[told.count++] = token;
    }
    if (!ends)
        return 0;
    if (!final || seat->walker.run || seat->walker.due != TOKEN)
        return -1;
    restart(&seat->walker);
    seat->state = LENT;
    return 1;
}

static int give_back(uint64_t lease)
{
    struct seat *seat = lent(lease);
    if (!seat || seat->state != LENT)
        return 0;
    seat->state = FREE;
    seat->asks_reset = 1;
    return 1;
}

static const uint8_t answer[] = { 0xE3, 3, 0, 18, 0, 0, 0x79, 5, 0, 0, 0, 0xFD, 0x10, 0, 0xC1, 0, 1, 0, 0, 0, 0, 0, 0, 0 };

static uint64_t asked, tokens;

static void exchange(const uint8_t *bytes, size_t count)
{
    out.count = told.count = 0;
    struct seat *seat = lease();
    if (!seat)
        stop("lease");
    uint64_t held = seat->lease, number = seat->number;
    if (!ask(held) || !put(held, "g\0e\0t\0 \0a\0", 10) || !finish(held) || came(number, bytes, count, 1) != 1 || !give_back(held))
        stop("exchange");
    asked += out.count;
    tokens += told.count;
}

int main(int argc, char **argv)
{
    if (argc != 2)
        return 2;
    exchange(answer + 6, sizeof answer - 6);
    for (unsigned long times = strtoul(argv[1], NULL, 10); times; times--)
        exchange(answer, sizeof answer);
    printf("%llu %llu\n", (unsigned long long)asked, (unsigned long long)tokens);
    return 0;
}
