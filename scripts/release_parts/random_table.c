/* Random calls of the table of a service, and of its clients: one number of all that was answered and written, field by
 * field. It has to be the same by the library and by the C file, on each machine.
 *
 * usage: random_table ROUNDS [SEED] */
#include "mouktelf.h"
#include <stdio.h>
#include <stdlib.h>
#include <string.h>

enum { MOST = 6, NAMES = 8, SIZE = 512 };

static struct tds_service service = {0, 0, 0, SIZE};
static struct tds_seat seats[MOST];
static struct tds_lent lent;
static uint64_t names[NAMES]; /* of leases and tickets: the newest ones, spent or not */
static uint64_t number, ticket;
static size_t count, at, next_name;
static uint8_t out[SIZE], message[TDS_MESSAGE_MOST];
static uint8_t kept[SIZE - 8]; /* of whichever request */
static size_t waiting, taken;
static struct tds_asked asked;
static struct tds_whose whose;

static unsigned long long calls, answers[256];
static uint64_t hash = 14695981039346656037ull;
static uint64_t state = 88172645463325252ull;

static uint32_t below(uint32_t n) {
    state ^= state << 13, state ^= state >> 7, state ^= state << 17;
    return (uint32_t)((state >> 16) % n);
}

static void mix(uint64_t value) {
    hash = (hash ^ value) * 1099511628211ull;
}

static void mix_seat(const struct tds_seat *it) {
    const struct tds_client *c = &it->client;
    const uint64_t fields[] = {c->descriptor, c->sent, c->packets, c->size, c->stage, c->kind, c->fault, c->token_fault, c->mark, c->done, c->columns, it->number, it->holder, it->asked, it->place};
    for (size_t i = 0; i < sizeof fields / sizeof *fields; i++) mix(fields[i]);
}

/* What a call answered, and all that is there then. */
static uint8_t answered(uint8_t answer) {
    answers[answer]++, calls++;
    mix(answer), mix(service.last), mix(service.given), mix(service.count), mix(service.size);
    mix(lent.lease), mix(lent.number), mix(lent.had), mix(number), mix(ticket), mix(count), mix(at);
    mix(asked.number), mix(asked.request), mix(whose.lease), mix(whose.request), mix(waiting), mix(taken);
    for (int i = 0; i < MOST; i++) mix_seat(&seats[i]);
    for (int i = 0; i < 32; i++) mix(out[i]), mix(kept[i]);
    return answer;
}

/* A name that was given, mostly. */
static uint64_t some_name(void) {
    return below(8) ? names[below(NAMES)] : below(3) ? below(30) : service.given + below(3);
}

static void name_is(uint64_t name) {
    names[next_name++ % NAMES] = name;
}

/* The connection of a seat that is in use, mostly. */
static uint64_t some_number(void) {
    return below(6) ? seats[below(MOST)].number : below(2) ? below(20) : service.last + below(2);
}

static size_t some_most(void) {
    return below(5) ? MOST : below(MOST + 1);
}

/* What a client is asked or takes: the calls of its own. */
static void use(struct tds_client *client) {
    static const uint16_t text[] = {'g', 'e', 't', ' ', 'a'};
    static const uint8_t ended[] = {4, 1, 0, 21, 0, 0, 2, 0, 0xFD, 0, 0, 0, 0, 0, 0, 0, 0, 0, 0, 0, 0};
    static const uint8_t acknowledged[] = {4, 1, 0, 21, 0, 0, 1, 0, 0xFD, 0x20, 0, 0, 0, 0, 0, 0, 0, 0, 0, 0, 0};
    static const uint8_t reset[] = {4, 1, 0, 27, 0, 0, 1, 0, 0xE3, 3, 0, 18, 0, 0, 0xFD, 0, 0, 0, 0, 0, 0, 0, 0, 0, 0, 0, 0};
    static const uint8_t begun[] = {4, 1, 0, 35, 0, 0, 1, 0, 0xE3, 11, 0, 8, 8, 1, 0, 0, 0, 0, 0, 0, 0, 0, 0xFD, 0, 0, 0, 0, 0, 0, 0, 0, 0, 0, 0, 0};
    static size_t length;
    switch (below(12)) {
    case 0: answered(tds_client_start_batch(client, text, 5, message, sizeof message, &length)); break;
    case 1: answered(tds_client_start_begin(client, (uint8_t)below(6), message, sizeof message, &length)); break;
    case 2: case 3: case 4: answered(tds_client_send(client, message, length, out, sizeof out, &count)); break;
    case 5: answered(tds_client_cancel(client, out, sizeof out, &count)); break;
    case 6: answered(tds_client_take(client, acknowledged, sizeof acknowledged)); break;
    case 7: answered(tds_client_take(client, begun, sizeof begun)); break;
    case 8: case 9: answered(tds_client_take(client, reset, sizeof reset)); break;
    default: answered(tds_client_take(client, ended, sizeof ended));
    }
}

/* What a lease asks. */
static void ask(void) {
    static const uint8_t kinds[] = {TDS_MESSAGE_BATCH, TDS_MESSAGE_RPC, TDS_MESSAGE_BULK, TDS_MESSAGE_TRANSACTION, 2};
    static uint8_t body[1200];
    size_t most = some_most(), room = below(8) ? sizeof kept : below(30), to = below(8) ? SIZE : below(SIZE);
    uint64_t name = some_name();
    for (int i = 0; i < 8; i++) body[below(sizeof body)] = (uint8_t)below(256);
    switch (below(8)) {
    case 0: case 1: case 2: answered(tds_service_ask(&service, seats, most, name, kinds[below(5)], kept, room, &waiting, &asked)); break;
    case 3: case 4: case 5:
        answered(tds_service_put(&service, seats, most, name, kept, room, &waiting, body, below(3) ? below(60) : below(sizeof body), &taken, out, to, &count));
        break;
    case 6: answered(tds_service_finish(&service, seats, most, name, kept, waiting, out, to, &count)); break;
    default: answered(tds_service_cancel(&service, seats, most, name, out, to, &count));
    }
}

/* What comes on a connection. */
static void hear(void) {
    size_t most = some_most();
    uint64_t of = some_number();
    switch (below(8)) {
    case 0: answered(tds_service_heard_change(&service, seats, most, of, (uint8_t)(8 + below(11)), below(5), &whose)); break;
    case 1: case 2: answered(tds_service_heard_done(&service, seats, most, of, (uint8_t)(0xFC + below(4)), (uint16_t)(below(2) ? 0 : 0x20), &whose)); break;
    case 3: answered(tds_service_heard_other(&service, seats, most, of, &whose)); break;
    case 4: {
        struct tds_wire_token token = {.value = below(5), .old_value = below(5), .kind = (uint8_t)(below(3) ? 0xFC + below(4) : 0xE3)};
        token.status = (uint16_t)(below(2) ? 0 : 0x20), token.told = (uint8_t)below(12), token.change = (uint8_t)(8 + below(11));
        answered(tds_service_came(&service, seats, most, of, &token, &whose));
        break;
    }
    default: answered(tds_service_message_ended(&service, seats, most, of, below(9) == 0, &whose));
    }
}

/* A value that no table has, now and then: no number of a seat is refused. */
static void spoil(void) {
    struct tds_seat *seat = &seats[below(MOST)];
    switch (below(12)) {
    case 0: seat->place = (uint8_t)below(256); break;
    case 1: seat->client.stage = (uint8_t)below(8); break;
    case 2: seat->client.packets = below(1000); break;
    case 3: seat->client.kind = (uint8_t)below(256); break;
    case 4: seat->holder = below(40); break;
    case 5: seat->client.mark = (uint8_t)below(256); break;
    case 6: service.count = below(2) ? MOST + below(9) : below(MOST); break;
    case 7: service.given = below(9) ? service.given : UINT64_MAX - below(2); break;
    case 8: service.last = below(9) ? service.last : UINT64_MAX - below(2); break;
    default: break;
    }
}

static void one(void) {
    size_t most = some_most(), room = below(4) ? 16 : below(17);
    switch (below(34)) {
    case 0: case 1: case 2: case 3:
        if (answered(tds_service_lease(&service, seats, most, &lent)) == TDS_OK) name_is(lent.lease);
        break;
    case 4: answered(tds_service_find(&service, seats, most, some_name(), &at)); break;
    case 5: answered(tds_service_at(&service, seats, most, some_number(), &at)); break;
    case 6: case 7: case 8: answered(tds_service_give_back(&service, seats, most, some_name(), out, room, &count, &number)); break;
    case 9: case 10: answered(tds_service_drained(&service, seats, most, some_number())); break;
    case 11: answered(tds_service_lost(&service, seats, most, some_number())); break;
    case 12:
        if (answered(tds_service_keep(&service, seats, most, some_name(), &ticket)) == TDS_OK) name_is(ticket);
        break;
    case 13:
        if (answered(tds_service_resume(&service, seats, most, some_name(), &lent)) == TDS_OK) name_is(lent.lease);
        break;
    case 14: answered(tds_service_abandon(&service, seats, most, some_name(), &number)); break;
    case 15:
        if (answered(tds_service_clean(&service, seats, most, some_number(), &lent)) == TDS_OK) name_is(lent.lease);
        break;
    case 16: answered(tds_service_cleaned(&service, seats, most, some_name(), &number)); break;
    case 17:
        if (below(40) == 0) spoil();
        break;
    case 18: case 19: case 20: case 21: ask(); break;
    case 22: case 23: case 24: case 25: hear(); break;
    default:
        use(&seats[below(MOST)].client);
    }
    /* A table that is used up is begun anew. */
    if (below(500) == 0) {
        memset(seats, 0, sizeof seats);
        service.last = service.given = 0;
        service.count = 0;
    }
}

int main(int argc, char **argv) {
    long rounds = argc > 1 ? atol(argv[1]) : 100000, kinds = 0;
    if (argc > 2) state ^= strtoull(argv[2], NULL, 10) * 0x9E3779B97F4A7C15ull;
    for (long i = 0; i < rounds; i++) one();
    for (int i = 0; i < 256; i++) kinds += answers[i] != 0;
    printf("%llu calls of a table, %ld answers: %016llx\n", calls, kinds, (unsigned long long)hash);
    return 0;
}
