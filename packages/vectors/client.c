/* The client of mouktelf.h as a program that run_vectors.py drives: a call a line, and its answer. */
#include "mouktelf.h"
#include <inttypes.h>
#include <stdio.h>
#include <stdlib.h>
#include <string.h>

#define MOST (1 << 20)

static struct tds_client client;
static uint8_t message[TDS_MESSAGE_MOST], out[32767], given[MOST], came[MOST];
static size_t length, count, waiting;
static char line[2 * MOST + 64];

static const char *const STAGES[] = {"idle", "sending", "reading", "cancelling", "broken"};
static const char *const MARKS[] = {"none", "full", "keep"};
static const char *const ANSWERS[] = {"-", "more", "last", "finished", "acknowledged", "nothing", "already", "unsent", "asked"};

static unsigned at16(const uint8_t *at) { return at[0] | (unsigned)at[1] << 8; }

static void put_text(const uint8_t *at, size_t units) {
    for (; units > 0; units--, at += 2) {
        unsigned unit = at16(at);
        if (unit >= 32 && unit <= 126 && unit != '\\')
            putchar((int)unit);
        else
            printf("\\u%04x", unit);
    }
}

static void put_token(const struct tds_token *it, const uint8_t *data) {
    const uint8_t *at = data + it->start;
    if (it->kind == TDS_ENVCHANGE) return;
    printf("told ");
    switch (it->kind) {
    case TDS_INFO:
    case TDS_ERROR:
        printf("%s %" PRId32 " ", it->kind == TDS_INFO ? "info" : "error", it->number);
        put_text(at + 11, at16(at + 9));
        break;
    case TDS_RETURNSTATUS: printf("status %" PRId32, it->number); break;
    case TDS_COLMETADATA:
        printf("columns ");
        at += 3;
        for (uint64_t column = 0; column < it->value; column++, at += 8 + 2 * at[7]) {
            if (column > 0) putchar(',');
            put_text(at + 8, at[7]);
        }
        break;
    case TDS_ROW:
        printf("row ");
        for (uint64_t value = 0; value < it->value; value++)
            printf("%s%" PRId32, value ? "," : "", (int32_t)(at16(at + 1 + 4 * value) | at16(at + 3 + 4 * value) << 16));
        break;
    case TDS_DONE: printf("done %04x %" PRIu64, it->status, it->value); break;
    }
    putchar('\n');
}

static uint8_t take(const uint8_t *packet, size_t size) {
    struct tds_cursor cursor = {0, client.columns};
    struct tds_token token = {0};
    int is_told = client.stage == TDS_READING;
    uint8_t answer = tds_client_take(&client, packet, size);
    while (answer < TDS_NO_CLIENT && is_told && tds_token_next(packet + 8, size - 8, &cursor, &token) == TDS_OK)
        put_token(&token, packet + 8);
    return answer;
}

/* Bytes came: each packet that is whole is taken. */
static uint8_t take_all(const uint8_t *bytes, size_t size) {
    struct tds_packet packet = {0};
    size_t begin = 0;
    uint8_t answer = TDS_OK;
    if (waiting + size > MOST) return TDS_NO_ROOM;
    memcpy(came + waiting, bytes, size);
    waiting += size;
    while (answer < TDS_NO_CLIENT && tds_packet_read(came + begin, waiting - begin, client.size, TDS_TO_CLIENT, &packet) == TDS_OK) {
        answer = take(came + begin, packet.length);
        begin += packet.length;
    }
    memmove(came, came + begin, waiting -= begin);
    return answer;
}

static int digit(char it) { return it <= '9' ? it - '0' : it - 'a' + 10; }

static uint8_t call(const char *word, const char *rest) {
    static uint16_t units[2000];
    size_t size = strlen(rest) / 2;
    unsigned char level = *rest ? (unsigned char)atoi(rest) : TDS_NO_NEXT;
    if (strcmp(word, "new") == 0) return waiting = 0, tds_client_new((uint16_t)atoi(rest), &client);
    if (strcmp(word, "mark_reset") == 0) return tds_client_mark_reset(&client, *rest == 'f' ? TDS_RESET_FULL : TDS_RESET_KEEP_TRANSACTION);
    if (strcmp(word, "begin") == 0) return tds_client_start_begin(&client, level, message, sizeof message, &length);
    if (strcmp(word, "commit") == 0) return tds_client_start_commit(&client, level, message, sizeof message, &length);
    if (strcmp(word, "rollback") == 0) return tds_client_start_rollback(&client, level, message, sizeof message, &length);
    if (strcmp(word, "send") == 0) return tds_client_send(&client, message, length, out, sizeof out, &count);
    if (strcmp(word, "cancel") == 0) return tds_client_cancel(&client, out, sizeof out, &count);
    for (size_t i = 0; i < size; i++) given[i] = (uint8_t)(digit(rest[2 * i]) << 4 | digit(rest[2 * i + 1]));
    if (strcmp(word, "came") == 0) return take_all(given, size);
    if (strcmp(word, "batch") != 0 || size > sizeof units) return TDS_OUT_OF_RANGE;
    for (size_t i = 0; i < size / 2; i++) units[i] = (uint16_t)at16(given + 2 * i);
    return tds_client_start_batch(&client, units, size / 2, message, sizeof message, &length);
}

int main(void) {
    while (fgets(line, sizeof line, stdin)) {
        char *word = strtok(line, " \n"), *rest = strtok(NULL, " \n");
        uint8_t answer;
        count = 0;
        answer = call(word ? word : "", rest ? rest : "");
        if (answer <= TDS_ASKED)
            printf("did %s ", ANSWERS[answer]);
        else
            printf("did %u ", answer);
        for (size_t i = 0; i < count; i++) printf("%02x", out[i]);
        printf("%s %s %" PRIu64 " %s\n", count ? "" : "-", STAGES[client.stage % 5], client.descriptor, MARKS[client.mark % 3]);
        fflush(stdout);
    }
    return 0;
}
