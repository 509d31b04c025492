/* Over a socket: logs in to a server of the batch language (tdsserve, also with --real), begins a transaction, is given
 * rows, cancels a batch in its middle, and commits. One thread calls and writes, so bytes go out in the order of the calls.
 *
 *     cc login.c $(pkg-config --cflags --libs mouktelf) && tdsserve 127.0.0.1:1433 & ./a.out 1433 */
#include "../../c/mouktelf.h"
#include <arpa/inet.h>
#include <netinet/in.h>
#include <stdio.h>
#include <stdlib.h>
#include <string.h>
#include <sys/socket.h>
#include <unistd.h>

#define SIZE 4096
enum { NBCROW = 0xD2, INTN = 0x26 };

/* One connection: its socket, the client, the walk that it hears by, the request's message, the bytes that came and are no
 * packet yet, and the data of the answer that it hears. */
struct connection {
    int socket;
    struct tds_client client;
    struct tds_wire walk;
    struct tds_wire_memory memory;
    uint8_t data[1 << 16];
    size_t has, columns; /* how many, and where its COLMETADATA stands */
    uint8_t message[TDS_MESSAGE_MOST];
    size_t length;
    uint8_t came[2 * SIZE];
    size_t count;
};

static void stop(const char *what, int number) {
    fprintf(stderr, "%s: %d\n", what, number);
    exit(1);
}

static void expect(const char *what, int is, int wanted) {
    if (is != wanted) stop(what, is);
}

static void put(struct connection *c, const uint8_t *bytes, size_t count) {
    while (count > 0) {
        ssize_t written = write(c->socket, bytes, count);
        if (written <= 0) stop("write", (int)written);
        bytes += written;
        count -= (size_t)written;
    }
}

/* The packet at the front of what came; more is read until there is one. */
static struct tds_packet packet_of(struct connection *c) {
    struct tds_packet packet = {0};
    for (;;) {
        uint8_t answer = tds_packet_read(c->came, c->count, SIZE, TDS_TO_CLIENT, &packet);
        if (answer == TDS_OK) return packet;
        expect("packet", answer, TDS_WANTS_BYTES);
        ssize_t got = read(c->socket, c->came + c->count, sizeof c->came - c->count);
        if (got <= 0) {
            tds_client_lost(&c->client);
            stop("read", (int)got);
        }
        c->count += (size_t)got;
    }
}

static void drop(struct connection *c, size_t length) {
    memmove(c->came, c->came + length, c->count - length);
    c->count -= length;
}

/* LOGIN7 (MS-TDS 2.2.6.4) of TDS 7.4, of 94 bytes and a name. A real server wants PRELOGIN before it, a password and
 * mostly TLS. */
static void log_in(struct connection *c) {
    uint8_t packet[8 + 94 + 4] = {0x10, 0x01, 0, 8 + 94 + 4, 0, 0, 1, 0};
    uint8_t *login = packet + 8;
    struct tds_packet answer;
    size_t at = 8;
    login[0] = 94 + 4;
    login[4] = 4, login[7] = 0x74;
    login[8] = SIZE & 255, login[9] = SIZE >> 8;
    /* Texts: where each begins, and how many units it has. The name stands first, the others are empty. */
    for (int field = 36; field < 90; field += field == 68 ? 10 : 4) login[field] = field == 40 ? 94 : 98;
    login[42] = 2;
    memcpy(login + 94, "s\0a\0", 4);
    put(c, packet, sizeof packet);
    answer = packet_of(c);
    /* LOGINACK (2.2.7.14) is among the tokens, each with its length behind its first byte. */
    while (at + 2 < answer.length && c->came[at] != 0xAD && c->came[at] != TDS_DONE)
        at += 3 + (c->came[at + 1] | (size_t)c->came[at + 2] << 8);
    if (at >= answer.length || c->came[at] != 0xAD) stop("login", c->came[8]);
    drop(c, answer.length);
    puts("logged in");
}

static void start_batch(struct connection *c, const char *text) {
    uint16_t units[200];
    size_t count = strlen(text);
    for (size_t i = 0; i < count; i++) units[i] = (uint8_t)text[i];
    expect("batch", tds_client_start_batch(&c->client, units, count, c->message, sizeof c->message, &c->length), TDS_OK);
}

static void send_all(struct connection *c) {
    uint8_t out[SIZE], answer;
    do {
        size_t count = 0;
        answer = tds_client_send(&c->client, c->message, c->length, out, sizeof out, &count);
        if (answer > TDS_LAST) stop("send", answer);
        put(c, out, count);
    } while (answer == TDS_MORE);
}

/* The first value of a row, a whole number of four bytes: the walk says where rows stand, and values are the caller's to
 * read (MS-TDS 2.2.7). */
static int first_of(const uint8_t *columns, const uint8_t *row) {
    size_t nulls = row[0] == NBCROW ? ((columns[1] | (size_t)columns[2] << 8) + 7) / 8 : 0;
    int32_t value;
    memcpy(&value, row + 1 + nulls + (columns[9] == INTN), 4);
    return (int)value;
}

static void show(struct connection *c, const struct tds_wire_token *token) {
    switch (token->kind) {
    case TDS_INFO:
        printf("info ");
        for (uint64_t i = 0; i < token->text.length; i += 2) putchar(c->data[token->text.start + i]);
        putchar('\n');
        break;
    case TDS_COLMETADATA: c->columns = (size_t)token->start; break;
    case TDS_ROW:
    case NBCROW: printf("row %d\n", first_of(c->data + c->columns, c->data + token->start)); break;
    default: break;
    }
}

/* Hears packets until the request is settled, and shows what is told. */
static void hear(struct connection *c, uint8_t wanted) {
    uint8_t heard;
    c->has = 0;
    do {
        struct tds_packet packet = packet_of(c);
        struct tds_wire_token tokens[16] = {{0}};
        const uint8_t *data = c->came + 8;
        size_t left = packet.length - 8, taken = 0, count = 0;
        if (c->has + left > sizeof c->data) stop("a long answer", (int)left);
        memcpy(c->data + c->has, data, left);
        c->has += left;
        do {
            heard = tds_client_hear(&c->client, &c->walk, &c->memory, data, left, packet.status & 1, &taken, tokens, 16, &count);
            for (size_t i = 0; i < count; i++) show(c, &tokens[i]);
            data += taken, left -= taken;
        } while (heard == TDS_TELL);
        if (heard >= 20) stop("hear", heard);
        if (packet.status & 1) c->has = 0;
        drop(c, packet.length);
    } while (heard == TDS_OK || heard == TDS_MORE);
    expect("answer", heard, wanted);
    puts(heard == TDS_FINISHED ? "finished" : "cancelled");
}

int main(int argc, char **argv) {
    static struct connection c;
    struct sockaddr_in address = {0};
    uint8_t attention[16];
    size_t count = 0;
    address.sin_family = AF_INET;
    address.sin_port = htons((uint16_t)atoi(argc > 1 ? argv[1] : "1433"));
    address.sin_addr.s_addr = htonl(INADDR_LOOPBACK);
    c.socket = socket(AF_INET, SOCK_STREAM, 0);
    if (connect(c.socket, (struct sockaddr *)&address, sizeof address) != 0) stop("connect", 0);
    log_in(&c);
    expect("new", tds_client_new(SIZE, &c.client), TDS_OK);
    expect("walk", tds_wire_new(TDS_WIRE_MOST_COLUMNS, 0, 0, &c.walk, &c.memory), TDS_OK);

    expect("begin", tds_client_start_begin(&c.client, 0, c.message, sizeof c.message, &c.length), TDS_OK);
    send_all(&c);
    hear(&c, TDS_FINISHED);
    start_batch(&c, "set a 5;say hello;rows 7 2");
    send_all(&c);
    hear(&c, TDS_FINISHED);

    start_batch(&c, "rows 0 64;rows 0 64;rows 0 64");
    send_all(&c);
    expect("cancel", tds_client_cancel(&c.client, attention, sizeof attention, &count), TDS_ASKED);
    put(&c, attention, count);
    hear(&c, TDS_ACKNOWLEDGED);
    printf("in a transaction: %s\n", c.client.descriptor != 0 ? "yes" : "no");

    expect("commit", tds_client_start_commit(&c.client, TDS_NO_NEXT, c.message, sizeof c.message, &c.length), TDS_OK);
    send_all(&c);
    hear(&c, TDS_FINISHED);
    printf("in a transaction: %s\n", c.client.descriptor != 0 ? "yes" : "no");
    close(c.socket);
    return 0;
}
