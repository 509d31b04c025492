/* A driver with a reader of its own: it streams its requests, reads the tokens of seven answers as a
 * SQL Server gives them (MS-TDS 2.2.7), and tells the client of each. */
#include "../../c/mouktelf.h"
#include <stdio.h>
#include <stdlib.h>
#include <string.h>

#define DONE 0xFD, 0, 0, 0xC1, 0, 1, 0, 0, 0, 0, 0, 0, 0
static const uint8_t DONE_ALONE[] = {DONE};
static const uint8_t USE[] = {0xE3, 7, 0, 1, 1, 'x', 0, 1, 'm', 0, DONE};
static const uint8_t LANGUAGE[] = {0xE3, 7, 0, 2, 1, 'x', 0, 1, 'm', 0, DONE};
static const uint8_t EXEC[] = {0xFF, 0x11, 0, 0xC1, 0, 1, 0, 0, 0, 0, 0, 0, 0, 0x79, 0, 0, 0, 0,
                               0xFE, 0, 0, 0xE0, 0, 0, 0, 0, 0, 0, 0, 0, 0, DONE};
static const uint8_t NVARCHAR[] = {0x81, 1, 0, 0, 0, 0, 0, 9, 0, 0xE7, 8, 0, 9, 4, 0xD0, 0, 0x34, 1, 's', 0,
                                   0xD1, 2, 0, 'a', 0, DONE};
static const uint8_t INTN[] = {0x81, 1, 0, 0, 0, 0, 0, 9, 0, 0x26, 4, 1, 'n', 0, 0xD1, 4, 7, 0, 0, 0, DONE};
static const uint8_t ORDER[] = {0xA9, 2, 0, 1, 0, DONE};
/* A transaction begins (MS-TDS 2.2.7.9, type 8), with descriptor 5. */
static const uint8_t BEGUN[] = {0xE3, 0x0B, 0, 8, 8, 5, 0, 0, 0, 0, 0, 0, 0, 0, DONE};
/* An attention is acknowledged (MS-TDS 2.2.7.6, bit 0020), behind the rest of an answer. */
static const uint8_t ACKNOWLEDGED[] = {0xA9, 2, 0, 1, 0, 0xFD, 0x20, 0, 0, 0, 0, 0, 0, 0, 0, 0, 0, 0};

static void expect(const char *what, unsigned long long is, unsigned long long wanted) {
    if (is != wanted) {
        fprintf(stderr, "%s: %llu, and %llu is wanted\n", what, is, wanted);
        exit(1);
    }
}

static unsigned two(const uint8_t *at) { return at[0] | (unsigned)at[1] << 8; }

static uint64_t eight(const uint8_t *at) {
    uint64_t value = 0;
    for (int i = 7; i >= 0; i--) value = value << 8 | at[i];
    return value;
}

/* A batch of so many bytes goes out in packets of 512. */
static void send(struct tds_client *client, size_t body) {
    uint8_t kept[504], out[512];
    const uint8_t letters[6] = {'g', 0, 'e', 0, 't', 0};
    size_t waiting, taken, count, packets = 0, sent = 0;
    expect("start", tds_client_start_message(client, TDS_MESSAGE_BATCH, kept, sizeof kept, &waiting), TDS_OK);
    for (size_t put = 0; put < body; put += taken) {
        size_t length = body - put < sizeof letters ? body - put : sizeof letters;
        if (tds_client_put(client, kept, sizeof kept, &waiting, letters + put % 6, length - put % 6, &taken, out, sizeof out, &count) == TDS_MORE)
            packets++, sent += count;
    }
    expect("finish", tds_client_finish(client, kept, waiting, out, sizeof out, &count), TDS_OK);
    expect("last", out[1], 1);
    printf("sent %zu packets, %zu bytes\n", packets + 1, sent + count);
}

/* How long the value of the only column is. */
static size_t value(uint8_t type, const uint8_t *at) { return type == 0xE7 ? 2 + two(at) : 1 + (size_t)at[0]; }

/* Tells the client of the token here, and says how long it is. */
static size_t token(struct tds_client *client, const uint8_t *at, uint8_t *type, uint8_t *answer) {
    switch (at[0]) {
    case 0xFD: case 0xFE: case 0xFF:
        *answer = tds_client_heard_done(client, at[0], two(at + 1));
        return 13;
    case 0xE3:
        if (at[3] >= 8 && at[3] <= 10)
            *answer = tds_client_heard_change(client, at[3], at[4] == 8 ? eight(at + 5) : eight(at + 6));
        else
            *answer = tds_client_heard_other(client);
        return 3 + two(at + 1);
    }
    *answer = tds_client_heard_other(client);
    switch (at[0]) {
    case 0x79: return 5;
    case 0x81: *type = at[9]; return *type == 0xE7 ? 20 : 14;
    case 0xD1: return 1 + value(*type, at + 1);
    default: return 3 + two(at + 1);
    }
}

/* Hears an answer, and counts what the caller is told of. */
static void hear(const char *what, struct tds_client *client, const uint8_t *data, size_t length, unsigned wanted) {
    uint8_t type = 0, answer = 0;
    size_t told = 0;
    for (size_t at = 0; at < length;) {
        at += token(client, data + at, &type, &answer);
        if (answer == TDS_TELL) told++;
        else expect(what, answer, TDS_DROP);
    }
    expect(what, tds_client_message_ended(client), wanted);
    expect(what, client->stage, TDS_IDLE);
    printf("%s: %zu told\n", what, told);
}

int main(void) {
    struct tds_client client = {0};
    uint8_t attention[16];
    size_t count;
    expect("new", tds_client_new(512, &client), TDS_OK);
    const struct { const char *what; const uint8_t *data; size_t length; } answers[] = {
        {"DONE alone", DONE_ALONE, sizeof DONE_ALONE}, {"USE x", USE, sizeof USE},
        {"SET LANGUAGE", LANGUAGE, sizeof LANGUAGE},   {"EXEC p", EXEC, sizeof EXEC},
        {"NVARCHAR", NVARCHAR, sizeof NVARCHAR},       {"INTN", INTN, sizeof INTN},
        {"ORDER BY", ORDER, sizeof ORDER},             {"BEGIN TRAN", BEGUN, sizeof BEGUN}};
    for (size_t i = 0; i < sizeof answers / sizeof *answers; i++) {
        send(&client, i == 0 ? 4000 : 6);
        hear(answers[i].what, &client, answers[i].data, answers[i].length, TDS_FINISHED);
    }
    expect("descriptor", client.descriptor, 5);
    send(&client, 6);
    expect("cancel", tds_client_cancel(&client, attention, sizeof attention, &count), TDS_ASKED);
    hear("cancelled", &client, ACKNOWLEDGED, sizeof ACKNOWLEDGED, TDS_ACKNOWLEDGED);
    expect("unasked", tds_client_heard_other(&client), TDS_CLIENT_ANSWER_IN_IDLE);
    return 0;
}
