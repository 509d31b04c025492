/* Streams a table of ten types, and cancels it in the middle, from a second thread: a lock holds each call on the client and the write of
 * what it hands out.     cc -pthread stream.c $(pkg-config --cflags --libs mouktelf) && tdsserve --real 127.0.0.1:1433 & ./a.out 1433 */
#include "../../c/mouktelf.h"
#include <arpa/inet.h>
#include <pthread.h>
#include <stdio.h>
#include <stdlib.h>

#define FOUR(text) text text text text
static const uint16_t TABLE[] = FOUR(u"select cast(1 as bit),cast(7 as tinyint),cast(8 as smallint),cast(9 as int),cast(10 as bigint),cast(1.50 as "
    u"decimal(9,2)),cast('a' as nvarchar(9)),cast('b' as varchar(9)),cast(0x0102 as varbinary(9)),cast('2026-11-28' as date);")
    FOUR(FOUR(FOUR(u"rows 0 64;"))), FEW[] = u"rows 7 2";
static const uint8_t LOGIN[102] = {16, 1, 0, 102, 0, 0, 1, 0, 94, 0, 0, 0, 4, 0, 0, 0x74, 0, 16};
static uint8_t head[8], data[1 << 20], out[4096], message[TDS_MESSAGE_MOST];
static struct tds_client client; static struct tds_wire walk; static struct tds_wire_memory memory;
static pthread_mutex_t lock = PTHREAD_MUTEX_INITIALIZER; static int to;

static void must(int holds) { if (!holds) perror("stream"), exit(1); }
static void *cancel(void *nothing) {
    size_t count = 0;
    pthread_mutex_lock(&lock);
    must(tds_client_cancel(&client, out, sizeof out, &count) == TDS_ASKED && send(to, out, count, 0) == (ssize_t)count);
    return pthread_mutex_unlock(&lock), nothing;
}
static ssize_t read_packet(uint8_t *its_data) { /* its header is in `head`; how many bytes of data it has */
    struct tds_packet packet = {0};
    uint8_t front = recv(to, head, 8, MSG_WAITALL) == 8 ? tds_packet_read(head, 8, 4096, TDS_TO_CLIENT, &packet) : TDS_END;
    ssize_t length = (head[2] << 8 | head[3]) - 8;
    must((front == TDS_OK || front == TDS_WANTS_BYTES) && recv(to, its_data, (size_t)length, MSG_WAITALL) == length);
    return length;
}
static void stream(const uint16_t *text, size_t units, size_t most) {
    static struct tds_column columns[16]; static struct tds_place places[16]; static struct tds_wire_token tokens[16], *it;
    size_t length = 0, count = 0, its = 0, at = 0, end = 0, rows = 0, taken = 0;
    uint8_t sent = TDS_MORE, heard = TDS_OK;
    pthread_t second;
    must(tds_client_start_batch(&client, text, units, message, sizeof message, &length) == TDS_OK);
    for (; sent == TDS_MORE; must(send(to, out, count, 0) > 0)) sent = tds_client_send(&client, message, length, out, sizeof out, &count);
    for (; heard < TDS_FINISHED || heard == TDS_TELL; at += taken) {
        end += heard == TDS_TELL ? 0 : (size_t)read_packet(data + end); /* TDS_TELL: this one has more tokens */
        pthread_mutex_lock(&lock);
        heard = tds_client_hear(&client, &walk, &memory, data + at, end - at, head[1] & 1, &taken, tokens, 16, &count);
        pthread_mutex_unlock(&lock);
        for (it = tokens; it < tokens + count; it++) {
            if (it->kind == TDS_COLMETADATA) tds_columns(data + it->start, it->length, 0, columns, 16, &its, &length);
            if ((it->kind != TDS_ROW && it->kind != 0xD2) || ++rows > most) continue;
            must(tds_row_places(columns, its, data + it->start, it->length, places, 16, &length) == TDS_WIRE_ENDED);
            for (size_t i = 0; i < its; i++) printf(places[i].null ? "-%c" : "%2$zu%1$c", i + 1 < its ? ' ' : '\n', (size_t)places[i].length);
            if (rows == most) must(!pthread_create(&second, NULL, cancel, NULL) && !pthread_join(second, NULL));
        }
    }
    must(heard < 20), puts(heard == TDS_FINISHED ? "finished" : "cancelled");
}
int main(int argc, char **argv) {
    struct sockaddr_in its = {.sin_family = AF_INET, .sin_port = htons((uint16_t)atoi(argv[argc - 1])), .sin_addr = {htonl(INADDR_LOOPBACK)}};
    must((to = socket(AF_INET, SOCK_STREAM, 0)) >= 0 && connect(to, (struct sockaddr *)&its, sizeof its) == 0);
    must(send(to, LOGIN, sizeof LOGIN, 0) == sizeof LOGIN && read_packet(data) > 0); /* its answer: login.c looks at it */
    must(tds_client_new(4096, &client) == TDS_OK && tds_wire_new(TDS_WIRE_MOST_COLUMNS, 0, 0, &walk, &memory) == 0);
    return stream(TABLE, sizeof TABLE / 2 - 1, 3), stream(FEW, sizeof FEW / 2 - 1, 9), 0;
}
