/* A request and its answer, a cancel that crosses the answer's end, a reset, and a peer's fault. */
#include "bytes.h"
#include "../../c/mouktelf.h"
#include <stdio.h>
#include <stdlib.h>
#include <string.h>

/* One connection: the client, and the message of the request that goes out. */
struct connection {
    struct tds_client client;
    uint8_t message[TDS_MESSAGE_MOST];
    size_t length;
};

static void expect(const char *what, unsigned long long is, unsigned long long wanted) {
    if (is != wanted) {
        fprintf(stderr, "%s: %llu, and %llu is wanted\n", what, is, wanted);
        exit(1);
    }
}

static void expect_bytes(const char *what, const uint8_t *is, size_t count, const uint8_t *wanted,
                         size_t length) {
    expect(what, count, length);
    if (memcmp(is, wanted, length) != 0) {
        fprintf(stderr, "%s: other bytes are wanted\n", what);
        exit(1);
    }
}

static void start_batch(struct connection *c, const char *text) {
    uint16_t units[64];
    size_t count = strlen(text);
    for (size_t i = 0; i < count; i++) units[i] = (uint8_t)text[i];
    expect("start", tds_client_start_batch(&c->client, units, count, c->message, sizeof c->message, &c->length), TDS_OK);
}

/* Sends what is one packet. */
static size_t send_one(struct connection *c, uint8_t *out, size_t room) {
    size_t count = 0;
    expect("send", tds_client_send(&c->client, c->message, c->length, out, room, &count), TDS_LAST);
    expect("reading", c->client.stage, TDS_READING);
    return count;
}

static void show(const struct tds_token *token, const uint8_t *data) {
    const uint8_t *at = data + token->start;
    switch (token->kind) {
    case TDS_INFO: printf("info %d %c\n", token->number, at[11]); break;
    case TDS_RETURNSTATUS: printf("status %d\n", token->number); break;
    case TDS_COLMETADATA: printf("columns %llu\n", (unsigned long long)token->value); break;
    case TDS_ROW: printf("row %d\n", at[1] | at[2] << 8); break;
    case TDS_DONE: printf("done %04x %llu\n", token->status, (unsigned long long)token->value); break;
    default: break;
    }
}

/* Takes a packet, and prints the tokens that are the caller's, two a call. */
static void take(struct connection *c, const uint8_t *bytes, size_t length, unsigned wanted) {
    struct tds_cursor cursor = {0, c->client.columns};
    struct tds_token tokens[2] = {{0}};
    size_t count = 0;
    uint8_t answer = c->client.stage == TDS_READING ? TDS_OK : TDS_END;
    expect("take", tds_client_take(&c->client, bytes, length), wanted);
    while (answer == TDS_OK) {
        answer = tds_tokens_next(bytes + 8, length - 8, &cursor, tokens, 2, &count);
        for (size_t i = 0; i < count; i++) show(&tokens[i], bytes + 8);
    }
    expect("tokens", answer, TDS_END);
}

/* Two packets and a beginning of a third, two a call. */
static void several(void) {
    uint8_t bytes[sizeof SAID + sizeof ENDED + 7];
    struct tds_packet found[2] = {{0}};
    size_t count = 0;
    memcpy(bytes, SAID, sizeof SAID);
    memcpy(bytes + sizeof SAID, ENDED, sizeof ENDED);
    memcpy(bytes + sizeof SAID + sizeof ENDED, SAID, 7);
    expect("full", tds_packets_read(bytes, sizeof bytes, 512, TDS_TO_CLIENT, found, 2, &count), TDS_OK);
    expect("two", count, 2);
    expect("first", found[0].length, sizeof SAID);
    expect("second", found[1].length, sizeof ENDED);
    expect("ends", found[1].status, 1);
    expect("third", tds_packets_read(bytes + sizeof SAID, sizeof bytes - sizeof SAID, 512, TDS_TO_CLIENT, found, 2, &count), TDS_WANTS_BYTES);
    expect("one", count, 1);
    expect("other way", tds_packets_read(bytes, sizeof bytes, 512, TDS_TO_SERVER, found, 2, &count), TDS_PACKET_OTHER_DIRECTION);
    expect("none", count, 0);
    expect("size", tds_packets_read(bytes, sizeof bytes, 511, TDS_TO_CLIENT, found, 2, &count), TDS_OUT_OF_RANGE);
}

static void packets(void) {
    struct tds_packet packet = {0};
    for (size_t n = 0; n < sizeof BEGUN; n++)
        expect("front", tds_packet_read(BEGUN, n, 512, TDS_TO_CLIENT, &packet), TDS_WANTS_BYTES);
    expect("packet", tds_packet_read(BEGUN, sizeof BEGUN, 512, TDS_TO_CLIENT, &packet), TDS_OK);
    expect("length", packet.length, sizeof BEGUN);
    several();
    expect("kind", packet.kind, 4);
    expect("status", packet.status, 1);
    expect("direction", tds_packet_read(BEGUN, sizeof BEGUN, 512, TDS_TO_SERVER, &packet), TDS_PACKET_OTHER_DIRECTION);
}

static void requests(struct connection *c) {
    uint8_t out[512];
    size_t count = 0;
    expect("new", tds_client_new(512, &c->client), TDS_OK);
    expect("begin", tds_client_start_begin(&c->client, 0, c->message, sizeof c->message, &c->length), TDS_OK);
    count = send_one(c, out, sizeof out);
    expect_bytes("begin", out, count, BEGIN, sizeof BEGIN);
    take(c, BEGUN, sizeof BEGUN, TDS_FINISHED);
    expect("descriptor", c->client.descriptor, 1);
    start_batch(c, "rows 5 2");
    send_one(c, out, sizeof out);
    take(c, ROWS, sizeof ROWS, TDS_MORE);
    take(c, ENDED, sizeof ENDED, TDS_FINISHED);
}

static void cancel_that_crosses(struct connection *c) {
    uint8_t out[512];
    size_t count = 0;
    start_batch(c, "say a");
    send_one(c, out, sizeof out);
    take(c, SAID, sizeof SAID, TDS_MORE);
    expect("room", tds_client_cancel(&c->client, out, 7, &count), TDS_NO_ROOM);
    expect("still reading", c->client.stage, TDS_READING);
    expect("cancel", tds_client_cancel(&c->client, out, sizeof out, &count), TDS_ASKED);
    expect_bytes("attention", out, count, ATTENTION, sizeof ATTENTION);
    take(c, ENDED, sizeof ENDED, TDS_MORE); /* the answer had ended before the attention came */
    take(c, ACKNOWLEDGED, sizeof ACKNOWLEDGED, TDS_ACKNOWLEDGED);
    expect("idle", c->client.stage, TDS_IDLE);
    start_batch(c, "say a");
    expect("unsent", tds_client_cancel(&c->client, out, sizeof out, &count), TDS_UNSENT);
}

static void reset(struct connection *c) {
    uint8_t out[512];
    size_t count = 0;
    expect("mark", tds_client_mark_reset(&c->client, TDS_RESET_FULL), TDS_OK);
    start_batch(c, "get x");
    count = send_one(c, out, sizeof out);
    expect_bytes("reset", out, count, GET_X_AFTER_RESET, sizeof GET_X_AFTER_RESET);
    take(c, RESET_STEP, sizeof RESET_STEP, TDS_MORE);
    expect("unmarked", c->client.mark, TDS_RESET_NONE);
    expect("no transaction", c->client.descriptor, 0);
    take(c, NOTHING_SET, sizeof NOTHING_SET, TDS_MORE);
    take(c, ENDED, sizeof ENDED, TDS_FINISHED);
}

/* Rows in one run, and tokens of which the last is cut. */
static void runs(void) {
    const uint8_t *data = ROWS + 8;
    struct tds_cursor cursor = {0, 0};
    struct tds_rows rows = {0, 0, 0};
    struct tds_token tokens[8] = {{0}};
    size_t count = 0, length = sizeof ROWS - 8;
    expect("none", tds_rows_next(data, length, &cursor, &rows), TDS_OK);
    expect("no row", rows.count, 0);
    expect("columns", tds_token_next(data, length, &cursor, tokens), TDS_OK);
    expect("rows", tds_rows_next(data, length, &cursor, &rows), TDS_OK);
    expect("two rows", rows.count == 2 && rows.columns == 1, 1);
    expect("first", data[rows.start + 1], 5);
    expect("second", data[rows.start + 5 + 1], 6);
    expect("done", tds_tokens_next(data, length, &cursor, tokens, 8, &count), TDS_END);
    expect("one", count == 1 && tokens[0].kind == TDS_DONE, 1);
    cursor.at = 0;
    expect("cut", tds_tokens_next(data, length - 1, &cursor, tokens, 8, &count), TDS_TOKEN_CUT);
    expect("before it", count == 3 && tokens[2].kind == TDS_ROW && cursor.at == length - 1, 1);
    expect("past", tds_tokens_next(data, length - 2, &cursor, tokens, 8, &count), TDS_NO_PLACE);
    expect("nothing", count == 0 && cursor.at == length - 1, 1);
    cursor.at = 0;
    expect("no room", tds_tokens_next(data, length, &cursor, tokens, 0, &count), TDS_OK);
    expect("none read", count == 0 && cursor.at == 0, 1);
}

static void faults(struct connection *c) {
    struct tds_client forged = c->client;
    expect("unasked", tds_client_take(&c->client, ENDED, sizeof ENDED), TDS_CLIENT_ANSWER_IN_IDLE);
    expect("broken", c->client.stage, TDS_BROKEN);
    expect("refused", tds_client_mark_reset(&c->client, TDS_RESET_FULL), TDS_IS_BROKEN);
    forged.stage = 9;
    expect("forged", tds_client_take(&forged, ENDED, sizeof ENDED), TDS_NO_CLIENT);
    forged.stage = TDS_IDLE;
    expect("lost", tds_client_lost(&forged), TDS_OK);
    expect("by loss", forged.fault, TDS_CLIENT_LOST - 60);
}

int main(void) {
    static struct connection connection;
    packets();
    runs();
    requests(&connection);
    cancel_that_crosses(&connection);
    reset(&connection);
    faults(&connection);
    return 0;
}
