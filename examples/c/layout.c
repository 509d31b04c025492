/* Compares the header's structs with those of the library: where each field lies, by what the
 * library writes there, and that nothing is written behind a struct. */
#include "bytes.h"
#include "../../c/mouktelf.h"
#include <stdio.h>
#include <stdlib.h>
#include <string.h>

/* Each field where the library has it: the widest fields first, so that nothing lies between. */
typedef char client_fields[offsetof(struct tds_client, descriptor) == 0 && offsetof(struct tds_client, sent) == 8 &&
    offsetof(struct tds_client, packets) == 16 && offsetof(struct tds_client, size) == 24 &&
    offsetof(struct tds_client, stage) == 26 && offsetof(struct tds_client, columns) == 32 &&
    sizeof(struct tds_client) == 40 ? 1 : -1];
typedef char packet_fields[offsetof(struct tds_packet, kind) == 8 && offsetof(struct tds_packet, status) == 9 &&
    sizeof(struct tds_packet) == 16 ? 1 : -1];
typedef char cursor_fields[offsetof(struct tds_cursor, columns) == 8 && sizeof(struct tds_cursor) == 16 ? 1 : -1];
typedef char token_fields[offsetof(struct tds_token, start) == 8 && offsetof(struct tds_token, number) == 16 &&
    offsetof(struct tds_token, line) == 20 && offsetof(struct tds_token, status) == 24 &&
    offsetof(struct tds_token, cur_cmd) == 26 && offsetof(struct tds_token, kind) == 28 &&
    offsetof(struct tds_token, change) == 31 && sizeof(struct tds_token) == 32 ? 1 : -1];
typedef char rows_fields[offsetof(struct tds_rows, count) == 8 && offsetof(struct tds_rows, columns) == 16 &&
    sizeof(struct tds_rows) == 24 ? 1 : -1];

static void expect(const char *what, int holds) {
    if (!holds) {
        fprintf(stderr, "layout: %s\n", what);
        exit(1);
    }
}

/* A struct with bytes behind it that nobody may write. */
#define GUARDED(type) struct { type it; uint8_t guard[64]; }
#define WHOLE(guarded) (guarded.guard[0] == 0xA5 && memcmp(guarded.guard, guarded.guard + 1, 63) == 0)

int main(void) {
    static GUARDED(struct tds_client) client;
    static GUARDED(struct tds_packet) packet;
    static GUARDED(struct tds_cursor) cursor;
    static GUARDED(struct tds_token) token;
    static GUARDED(struct tds_rows) rows;
    static struct tds_token two[2];
    static struct tds_packet several[2];
    static uint16_t text[1000];
    static uint8_t message[TDS_MESSAGE_MOST], out[512];
    size_t length = 0, count = 0;
    memset(&client, 0xA5, sizeof client);
    memset(&packet, 0xA5, sizeof packet);
    memset(&cursor, 0xA5, sizeof cursor);
    memset(&token, 0xA5, sizeof token);
    memset(&rows, 0xA5, sizeof rows);

    expect("new", tds_client_new(512, &client.it) == TDS_OK);
    expect("mark", tds_client_mark_reset(&client.it, TDS_RESET_KEEP_TRANSACTION) == TDS_OK);
    expect("start", tds_client_start_batch(&client.it, text, 1000, message, sizeof message, &length) == TDS_OK);
    expect("send", tds_client_send(&client.it, message, length, out, sizeof out, &count) == TDS_MORE);
    expect("message", length == 2022 && count == 512 && client.it.sent == 504 && client.it.packets == 1);
    expect("client", client.it.size == 512 && client.it.stage == TDS_SENDING && client.it.kind == 1);
    expect("marked", client.it.mark == TDS_RESET_KEEP_TRANSACTION && client.it.descriptor == 0);
    expect("fault", tds_client_take(&client.it, ENDED, sizeof ENDED) == TDS_CLIENT_ANSWER_IN_SENDING);
    expect("broken", client.it.stage == TDS_BROKEN && client.it.fault == 2 && client.it.token_fault == 0);
    expect("client's end", WHOLE(client));

    expect("read", tds_packet_read(ROWS, sizeof ROWS, 512, TDS_TO_CLIENT, &packet.it) == TDS_OK);
    expect("packet", packet.it.length == sizeof ROWS && packet.it.kind == 4 && packet.it.status == 0);
    expect("packet's end", WHOLE(packet));
    expect("several", tds_packets_read(ROWS, sizeof ROWS, 512, TDS_TO_CLIENT, several, 2, &count) == TDS_WANTS_BYTES && count == 1);
    expect("the first", several[0].length == sizeof ROWS && several[0].kind == 4 && several[1].length == 0);

    cursor.it.at = 0;
    cursor.it.columns = 0;
    expect("columns", tds_token_next(ROWS + 8, sizeof ROWS - 8, &cursor.it, &token.it) == TDS_OK);
    expect("one column", token.it.kind == TDS_COLMETADATA && token.it.value == 1 && cursor.it.columns == 1);
    for (int i = 0; i < 3; i++)
        expect("next", tds_token_next(ROWS + 8, sizeof ROWS - 8, &cursor.it, &token.it) == TDS_OK);
    expect("done", token.it.kind == TDS_DONE && token.it.status == 0x11 && token.it.value == 2);
    expect("end", cursor.it.at == sizeof ROWS - 8 && cursor.it.columns == 0);
    expect("token's end", WHOLE(token) && WHOLE(cursor));

    cursor.it.at = 0;
    expect("two", tds_tokens_next(ROWS + 8, sizeof ROWS - 8, &cursor.it, two, 2, &count) == TDS_OK && count == 2);
    expect("second", two[0].kind == TDS_COLMETADATA && two[1].kind == TDS_ROW && two[1].start > two[0].start);
    expect("rows", tds_rows_next(ROWS + 8, sizeof ROWS - 8, &cursor.it, &rows.it) == TDS_OK);
    expect("one row", rows.it.start == two[1].start + 5 && rows.it.count == 1 && rows.it.columns == 1);
    expect("rows' end", WHOLE(rows) && WHOLE(cursor));
    return 0;
}
