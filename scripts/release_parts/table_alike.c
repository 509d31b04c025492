/* tds_service_hear beside the calls that it stands for: random answers, cut anywhere, with bytes that are changed, on a connection that
 * reads, cancels, drains or does none of it. Each token that is told, whose it is, each answer and the table behind it are compared.
 *
 * usage: table_alike ROUNDS [SEED] */
#include "mouktelf.h"
#include <stdio.h>
#include <stdlib.h>
#include <string.h>

enum { SIZE = 4096, MOST = 700 };

static uint64_t state = 88172645463325252ull;
static uint32_t below(uint32_t n) {
    state ^= state << 13, state ^= state >> 7, state ^= state << 17;
    return (uint32_t)((state >> 16) % n);
}

static uint8_t data[MOST];
static size_t length;
static void put(const char *bytes, size_t count) {
    if (length + count > MOST) return;
    memcpy(data + length, bytes, count);
    length += count;
}
#define PUT(text) put(text, sizeof text - 1)

/* An answer: a reset's end, a transaction, rows, a text, a status and a DONE, some of them. */
static void make_answer(int resets) {
    length = 0;
    if (resets || !below(9)) PUT("\xE3\x03\x00\x12\x00\x00");
    if (!below(3)) PUT("\xE3\x0B\x00\x08\x08\x01\x02\x03\x04\x05\x06\x07\x08\x00");
    if (!below(5)) PUT("\xE3\x0B\x00\x09\x00\x08\x01\x02\x03\x04\x05\x06\x07\x08");
    if (!below(2)) {
        PUT("\x81\x01\x00\x00\x00\x00\x00\x00\x00\x38\x01n\x00");
        for (uint32_t n = below(30); n; n--) PUT("\xD1\x01\x02\x03\x04");
    }
    if (!below(3)) PUT("\xAB\x10\x00\x01\x00\x00\x00\x01\x00\x01\x00x\x00\x00\x00\x01\x00\x00\x00");
    if (!below(2)) PUT("\x79\x05\x00\x00\x00");
    if (!below(4)) PUT("\xFF\x01\x00\xC1\x00\x00\x00\x00\x00\x00\x00\x00\x00");
    if (below(12)) put(below(4) ? "\xFD\x10\x00\xC1\x00\x01\x00\x00\x00\x00\x00\x00\x00" : "\xFD\x20\x00\x00\x00\x00\x00\x00\x00\x00\x00\x00\x00", 13);
    if (length && !below(4)) data[below((uint32_t)length)] = (uint8_t)below(256);
}

enum { SEATS = 4 };
struct end {
    struct tds_service service;
    struct tds_seat seats[SEATS];
    struct tds_wire walk;
    struct tds_wire_memory memory;
    struct tds_wire_token tokens[MOST];
    struct tds_whose whose;
    size_t count, taken;
    uint8_t answer;
};
static struct end one, many;
static uint64_t number;

/* The calls one by one. */
static void hear(struct end *it, const uint8_t *bytes, size_t left, uint8_t ends) {
    it->count = it->taken = 0;
    it->answer = TDS_OK;
    while (left) {
        struct tds_wire_token *token = &it->tokens[it->count];
        size_t count;
        uint8_t walked = tds_wire_next(&it->walk, &it->memory, bytes, left, &count, token);
        if (walked > TDS_WIRE_MORE) {
            it->answer = walked;
            return;
        }
        if (walked == TDS_WIRE_ENDED) {
            uint8_t told = tds_service_came(&it->service, it->seats, SEATS, number, token, &it->whose);
            if (told != TDS_TELL && told != TDS_DROP) {
                it->answer = told;
                return;
            }
            it->count += told == TDS_TELL;
        }
        it->taken += count, bytes += count, left -= count;
    }
    if (!ends) return;
    it->answer = tds_service_message_ended(&it->service, it->seats, SEATS, number, !tds_wire_is_between(&it->walk, &it->memory), &it->whose);
    tds_wire_restart(&it->walk, &it->memory);
}

/* The one call, with room for some tokens, as often as it wants. */
static void hear_by_room(struct end *it, const uint8_t *bytes, size_t left, uint8_t ends) {
    it->count = it->taken = 0;
    do {
        size_t taken, count, room = 1 + below(below(2) ? 3 : 60);
        it->answer = tds_service_hear(&it->service, it->seats, SEATS, number, &it->walk, &it->memory, bytes + it->taken, left - it->taken,
                                      ends, &taken, it->tokens + it->count, room, &count, &it->whose);
        it->taken += taken, it->count += count;
    } while (it->answer == TDS_TELL);
}

/* A connection between two others, which was asked something, mostly; cancelled, given back, or not. */
static void begin(int resets) {
    static uint8_t out[SIZE], kept[SIZE];
    struct tds_lent lent[3];
    struct tds_asked asked;
    size_t count, waiting;
    uint64_t ended;
    memset(&one, 0, sizeof one);
    one.service.size = SIZE;
    for (int k = 0; k < 3; k++) tds_service_lease(&one.service, one.seats, SEATS, &lent[k]);
    number = lent[1].number;
    tds_wire_new(64, 0, 0, &one.walk, &one.memory);
    if (resets) tds_client_mark_reset(&one.seats[1].client, 1 + below(2));
    if (below(20) && !tds_service_ask(&one.service, one.seats, SEATS, lent[1].lease, TDS_MESSAGE_BATCH, kept, SIZE - 8, &waiting, &asked) && below(20))
        tds_service_finish(&one.service, one.seats, SEATS, lent[1].lease, kept, waiting, out, sizeof out, &count);
    if (!below(5)) tds_service_cancel(&one.service, one.seats, SEATS, lent[1].lease, out, sizeof out, &count);
    if (!below(5)) tds_service_give_back(&one.service, one.seats, SEATS, lent[1].lease, out, sizeof out, &count, &ended);
    many = one;
}

int main(int argc, char **argv) {
    unsigned long long rounds = argc > 1 ? strtoull(argv[1], NULL, 10) : 1, wrong = 0, answers[256] = {0};
    if (argc > 2) state ^= strtoull(argv[2], NULL, 10) * 0x9E3779B97F4A7C15ull;
    for (unsigned long long round = 0; round < rounds; round++) {
        int resets = !below(3);
        make_answer(resets);
        begin(resets);
        for (size_t from = 0, to; from <= length; from = to + (to == length)) {
            int awaits = one.seats[1].client.stage == TDS_READING || one.seats[1].client.stage == TDS_CANCELLING;
            to = from + below((uint32_t)(length - from) + 1);
            if (!below(3)) to = length;
            uint8_t ends = to == length;
            hear(&one, data + from, to - from, ends);
            hear_by_room(&many, data + from, to - from, ends);
            answers[many.answer]++;
            /* Bytes that are none break the connection there; one by one that is left to the caller. */
            if (one.answer >= 71 && one.answer <= 74) {
                wrong += awaits ? many.answer != one.answer || many.seats[1].client.stage != TDS_BROKEN : many.answer < 61;
                break;
            }
            wrong += one.answer != many.answer || one.count != many.count || memcmp(one.tokens, many.tokens, one.count * sizeof *one.tokens) ||
                     memcmp(one.seats, many.seats, sizeof one.seats) || memcmp(&one.service, &many.service, sizeof one.service) ||
                     (to > from && one.taken && memcmp(&one.whose, &many.whose, sizeof one.whose) && one.whose.request) ||
                     (one.answer < 20 && one.taken != many.taken);
            if (many.answer >= 20) break;
        }
    }
    for (int i = 0; i < 256; i++)
        if (answers[i]) printf("%d: %llu  ", i, answers[i]);
    printf("\n%llu rounds, %llu wrong\n", rounds, wrong);
    return wrong != 0;
}
