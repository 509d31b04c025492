/* The exchanges of tests/crates/test_listen/src/exchanging.rs from C, by libtds_c.a: a lease, a request of one packet,
 * its answer of one, the return. Beside it stands plain_service.c, which does the same.
 *
 * usage: exchange TIMES      prints the bytes of all requests, and how many tokens were told
 */
#include "tds_service.h"
#include <stdio.h>
#include <stdlib.h>

enum { MOST = 64, SIZE = 4096 };

static struct tds_service service = {0, 0, 0, SIZE};
static struct tds_seat seats[MOST];
static struct wire {             /* by number, which is one alone here */
    uint8_t kept[SIZE - 8];
    size_t waiting;
    struct tds_wire walk;
    struct tds_wire_memory memory;
} wires[2];

static uint8_t out[2 * SIZE];
static size_t filled;
static struct told { struct tds_wire_token tokens[64]; size_t count; } told;
static unsigned long long asked, tokens;

static void expect(const char *what, unsigned is, unsigned wanted)
{
    if (is == wanted)
        return;
    fprintf(stderr, "exchange: %s: %u, and %u is wanted\n", what, is, wanted);
    exit(1);
}

static void ask(uint64_t lease, struct wire *wire)
{
    static const uint8_t text[] = {'g', 0, 'e', 0, 't', 0, ' ', 0, 'a', 0};
    struct tds_asked request;
    size_t taken, count = 0;
    expect("ask", tds_service_ask(&service, seats, MOST, lease, TDS_MESSAGE_BATCH, wire->kept, SIZE - 8, &wire->waiting, &request), TDS_OK);
    expect("put", tds_service_put(&service, seats, MOST, lease, wire->kept, SIZE - 8, &wire->waiting, text, sizeof text, &taken,
                                  out + filled, sizeof out - filled, &count), TDS_OK);
    expect("finish", tds_service_finish(&service, seats, MOST, lease, wire->kept, wire->waiting, out + filled, sizeof out - filled, &count), TDS_OK);
    filled += count;
}

/* The data of the answer's only packet. */
static void hear(uint64_t number, struct wire *wire, const uint8_t *bytes, size_t length)
{
    size_t taken;
    struct tds_whose whose;
    expect("hear", tds_service_hear(&service, seats, MOST, number, &wire->walk, &wire->memory, bytes, length, 1, &taken, told.tokens, 64, &told.count, &whose), TDS_FINISHED);
}

static const uint8_t answer[] = { 0xE3, 3, 0, 18, 0, 0, 0x79, 5, 0, 0, 0, 0xFD, 0x10, 0, 0xC1, 0, 1, 0, 0, 0, 0, 0, 0, 0 };

static void exchange(const uint8_t *bytes, size_t length)
{
    struct tds_lent lent;
    size_t count = 0;
    uint64_t number;
    filled = told.count = 0;
    expect("lease", tds_service_lease(&service, seats, MOST, &lent), TDS_OK);
    expect("number", (unsigned)lent.number, 1);
    struct wire *wire = &wires[lent.number];
    if (!lent.had)
        tds_wire_new(64, 0, 0, &wire->walk, &wire->memory);
    ask(lent.lease, wire);
    hear(lent.number, wire, bytes, length);
    expect("give back", tds_service_give_back(&service, seats, MOST, lent.lease, out + filled, sizeof out - filled, &count, &number), TDS_SERVICE_FREE);
    asked += filled + count;
    tokens += told.count;
}

int main(int argc, char **argv)
{
    if (argc != 2)
        return 2;
    exchange(answer + 6, sizeof answer - 6);
    for (unsigned long times = strtoul(argv[1], NULL, 10); times; times--)
        exchange(answer, sizeof answer);
    printf("%llu %llu\n", asked, tokens);
    return 0;
}
