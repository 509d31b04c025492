/* Five callers and two connections, in front of a server in memory. Each asks by his lease, and what
 * comes on a connection is told with the lease that it belongs to (tds_service.h); where its tokens end
 * is tds_wire.h's. Ben goes while his answer is on its way, so his cancel crosses it. */
#include "../../c/mouktelf.h"
#include <stdio.h>
#include <stdlib.h>
#include <string.h>

enum { CALLERS = 5, MOST = 2, SIZE = 512 };

static struct caller {
    const char *name;
    uint64_t lease; /* 0 while it waits */
    int gone;
} callers[CALLERS] = {{"anna", 0, 0}, {"ben", 0, 0}, {"cleo", 0, 0}, {"dora", 0, 0}, {"emil", 0, 0}};

static struct tds_service service = {0, 0, 0, SIZE};
static struct tds_seat seats[MOST];
static struct {                    /* by number */
    uint8_t bytes[SIZE];           /* on their way to the client */
    size_t length;
    uint8_t kept[SIZE - 8];        /* of the request that goes out */
    size_t waiting;
    struct tds_wire walk;
    struct tds_wire_memory memory;
} wires[MOST + 1];

static void expect(const char *what, unsigned is, unsigned wanted) {
    if (is == wanted) return;
    fprintf(stderr, "%s: %u, and %u is wanted\n", what, is, wanted);
    exit(1);
}

/* ---- The server: what is sent to it is answered at once */

static void answer(uint64_t number, const uint8_t *tokens, size_t length) {
    const uint8_t header[8] = {4, 1, 0, (uint8_t)(8 + length), 0, 0, 1, 0};
    memcpy(wires[number].bytes + wires[number].length, header, 8);
    memcpy(wires[number].bytes + wires[number].length + 8, tokens, length);
    wires[number].length += 8 + length;
}

static void serve(uint64_t number, const uint8_t *packet) {
    static const uint8_t reset[19] = {0xE3, 3, 0, 18, 0, 0, 0xFD}; /* ENVCHANGE 18, and the final DONE */
    static const uint8_t acknowledged[13] = {0xFD, 0x20};          /* a DONE with bit 0020 */
    if (packet[0] == 6) answer(number, acknowledged, 13);
    else if (packet[1] & 8) printf("  connection %u is reset\n", (unsigned)number), answer(number, reset, 19);
    else answer(number, reset + 6, 13);
}

/* ---- The callers */

static void ask(struct caller *caller, uint64_t number) {
    static const uint8_t text[] = {'g', 0, 'e', 0, 't', 0, ' ', 0, 'a', 0};
    static uint8_t out[SIZE];
    struct tds_asked asked = {0, 0};
    size_t taken = 0, count = 0, *waiting = &wires[number].waiting;
    uint8_t *kept = wires[number].kept;
    expect("ask", tds_service_ask(&service, seats, MOST, caller->lease, TDS_MESSAGE_BATCH, kept, SIZE - 8, waiting, &asked), TDS_OK);
    expect("put", tds_service_put(&service, seats, MOST, caller->lease, kept, SIZE - 8, waiting, text, sizeof text, &taken, out, SIZE, &count), TDS_OK);
    expect("finish", tds_service_finish(&service, seats, MOST, caller->lease, kept, *waiting, out, SIZE, &count), TDS_OK);
    expect("number", (unsigned)asked.number, (unsigned)number);
    serve(number, out);
}

static void leave(struct caller *caller) {
    static const char *const rests[] = {"", "free", "draining", "closed"};
    uint8_t out[16];
    size_t count = 0;
    uint64_t number = 0;
    uint8_t rest = tds_service_give_back(&service, seats, MOST, caller->lease, out, sizeof out, &count, &number);
    if (rest >= 20) expect("give back", rest, TDS_SERVICE_FREE);
    printf("%s leaves connection %u: %s\n", caller->name, (unsigned)number, rests[rest]);
    if (count) serve(number, out);
    expect("spent", tds_service_cancel(&service, seats, MOST, caller->lease, out, sizeof out, &count), TDS_SERVICE_UNKNOWN);
    caller->gone = 1;
}

static void come(struct caller *caller) {
    struct tds_lent lent = {0, 0, 0};
    uint8_t is = tds_service_lease(&service, seats, MOST, &lent);
    if (is == TDS_SERVICE_ALL_IN_USE) {
        printf("%s waits\n", caller->name);
        return;
    }
    expect("lease", is, TDS_OK);
    printf("%s is lent connection %u, %s\n", caller->name, (unsigned)lent.number, lent.had ? "again" : "a new one");
    caller->lease = lent.lease;
    if (!lent.had) tds_wire_new(16, 0, 0, &wires[lent.number].walk, &wires[lent.number].memory);
    ask(caller, lent.number);
}

/* ---- What comes, whoever holds the connection */

static void hear(uint64_t number, const uint8_t *packet, size_t length) {
    struct tds_wire *walk = &wires[number].walk;
    struct tds_wire_memory *memory = &wires[number].memory;
    struct tds_wire_token token = {0};
    struct tds_whose whose = {0, 0};
    size_t told = 0, count = 0;
    for (size_t at = 8; at < length; at += count) {
        if (tds_wire_next(walk, memory, packet + at, length - at, &count, &token) == TDS_WIRE_MORE) continue;
        uint8_t is = tds_service_came(&service, seats, MOST, number, &token, &whose);
        if (is >= 20) expect("came", is, TDS_TELL);
        told += is == TDS_TELL;
    }
    if (!(packet[1] & 1)) return;
    uint8_t ended = tds_service_message_ended(&service, seats, MOST, number, !tds_wire_is_between(walk, memory), &whose);
    if (ended >= 20) expect("ended", ended, TDS_FINISHED);
    tds_wire_restart(walk, memory);
    for (struct caller *c = callers; c < callers + CALLERS; c++)
        if (!c->gone && c->lease && c->lease == whose.lease && ended == TDS_FINISHED) {
            printf("  %s is told %u token of request %u\n", c->name, (unsigned)told, (unsigned)whose.request);
            leave(c);
        }
    if (ended == TDS_ACKNOWLEDGED && !whose.lease) printf("  connection %u has drained\n", (unsigned)number);
}

int main(void) {
    for (int round = 0; round < 3; round++) {
        for (struct caller *c = callers; c < callers + CALLERS; c++)
            if (!c->lease) come(c);
        if (!callers[1].gone) leave(&callers[1]);
        for (uint64_t number = 1; number <= MOST; number++) {
            struct tds_packet packet = {0, 0, 0};
            for (size_t at = 0; at < wires[number].length; at += packet.length) {
                const uint8_t *bytes = wires[number].bytes + at;
                expect("packet", tds_packet_read(bytes, wires[number].length - at, SIZE, TDS_TO_CLIENT, &packet), TDS_OK);
                hear(number, bytes, packet.length);
            }
            wires[number].length = 0;
        }
    }
    for (struct caller *c = callers; c < callers + CALLERS; c++) expect(c->name, (unsigned)c->gone, 1);
    return 0;
}
