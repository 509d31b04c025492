/* Writes the answers that are measured, as one file each, to the folder that is named. Each is one
 * message of packets of type 4 (MS-TDS 2.2.3.1), or many; and the requests for a server.
 *
 * answers.SIZE        200,000 answers of one packet: one DONE, 21 bytes a packet
 * small.SIZE          20 MB in packets of 26 bytes: a RETURNSTATUS and a DONE that says more come
 * rows1.SIZE          20 MB of rows with one INT4, in packets of SIZE bytes
 * rows8.SIZE          20 MB of rows with eight
 * rows1.4096.narrow   the same in the layout of TDS 7.1, for a client that speaks no newer one: a
 * rows8.4096.narrow   column's user type has two bytes, and a DONE's rows have four
 * asks_say.512        20 MB / 100 requests of one packet: the batch `say hello`
 * asks_rows.512       the same of `rows 1 64`
 * asks_get.512        the same of `get a`
 * asks_begin.512      the same of a begin and a commit, one after the other
 *
 * usage: streams FOLDER [BYTES]
 */
#include <stdint.h>
#include <stdio.h>
#include <stdlib.h>
#include <string.h>

static FILE *file;

static void open_in(const char *folder, const char *name) {
    char path[4096];
    snprintf(path, sizeof path, "%s/%s", folder, name);
    file = fopen(path, "wb");
    if (file == NULL) exit(2);
}

static void close_it(void) {
    if (fclose(file) != 0) exit(2);
}

static void put_packet_as(uint8_t kind, const uint8_t *data, size_t length, int ends) {
    size_t whole = length + 8;
    uint8_t header[8] = {kind, (uint8_t)(ends ? 1 : 0), (uint8_t)(whole >> 8), (uint8_t)whole, 0, 0, 1, 0};
    if (fwrite(header, 1, 8, file) != 8 || fwrite(data, 1, length, file) != length) exit(2);
}

static void put_packet(const uint8_t *data, size_t length, int ends) {
    put_packet_as(4, data, length, ends);
}

static size_t put_done_as(uint8_t *at, uint16_t status, uint64_t rows, int narrow) {
    memset(at, 0, 13);
    at[0] = 0xFD, at[1] = (uint8_t)status;
    for (int i = 0; i < (narrow ? 4 : 8); i++) at[5 + i] = (uint8_t)(rows >> (8 * i));
    return narrow ? 9 : 13;
}

static size_t put_done(uint8_t *at, uint16_t status, uint64_t rows) {
    return put_done_as(at, status, rows, 0);
}

static void answers(const char *folder, uint64_t count) {
    uint8_t data[13];
    open_in(folder, "answers.4096");
    for (uint64_t i = 0; i < count; i++) put_packet(data, put_done(data, 0, 0), 1);
    close_it();
}

static void small(const char *folder, uint64_t bytes) {
    uint8_t data[18] = {0x79};
    open_in(folder, "small.4096");
    for (uint64_t i = 0; i < bytes / 26; i++) {
        data[1] = (uint8_t)i;
        put_packet(data, 5 + put_done(data + 5, 1, 0), 0);
    }
    put_packet(data, put_done(data, 0, 0), 1);
    close_it();
}

/* A COLMETADATA of so many INT4 columns with the name n. */
static size_t put_columns(uint8_t *at, uint8_t columns, int narrow) {
    uint8_t wide[] = {0, 0, 0, 0, 0, 0, 0x38, 1, 'n', 0};
    size_t from = narrow ? 2 : 0, each = sizeof wide - from;
    at[0] = 0x81, at[1] = columns, at[2] = 0;
    for (uint8_t i = 0; i < columns; i++) memcpy(at + 3 + each * i, wide + from, each);
    return 3 + each * columns;
}

static void rows(const char *folder, uint8_t columns, size_t size, uint64_t bytes, int narrow) {
    static uint8_t data[32768];
    char name[64];
    size_t each = 1 + 4u * columns, had = put_columns(data, columns, narrow);
    uint64_t count = bytes / each;
    snprintf(name, sizeof name, "rows%d.%zu%s", columns, size, narrow ? ".narrow" : "");
    open_in(folder, name);
    for (uint64_t row = 0; row < count; row++) {
        if (had + each > size - 8) put_packet(data, had, 0), had = 0;
        data[had] = 0xD1;
        for (uint8_t i = 0; i < columns; i++) {
            uint32_t value = (uint32_t)(row * columns + i);
            for (int b = 0; b < 4; b++) data[had + 1 + 4u * i + (unsigned)b] = (uint8_t)(value >> (8 * b));
        }
        had += each;
    }
    if (had + 13 > size - 8) put_packet(data, had, 0), had = 0;
    had += put_done_as(data + had, 0x10, count, narrow);
    put_packet(data, had, 1);
    close_it();
}

/* A request of one packet: its type, the descriptor that its headers name, and its body. */
static void put_request(uint8_t kind, uint64_t descriptor, const uint8_t *body, size_t length) {
    uint8_t data[128] = {22, 0, 0, 0, 18, 0, 0, 0, 2};
    for (int i = 0; i < 8; i++) data[10 + i] = (uint8_t)(descriptor >> (8 * i));
    data[18] = 1;
    memcpy(data + 22, body, length);
    put_packet_as(kind, data, 22 + length, 1);
}

static void asks(const char *folder, const char *name, const char *text, uint64_t count) {
    uint8_t units[64] = {0};
    open_in(folder, name);
    for (size_t i = 0; text[i]; i++) units[2 * i] = (uint8_t)text[i];
    for (uint64_t i = 0; i < count; i++) put_request(1, 0, units, 2 * strlen(text));
    close_it();
}

/* Begins (5) at isolation level 0, and commits (7), of the transactions 1, 2 and on. */
static void begins(const char *folder, uint64_t count) {
    open_in(folder, "asks_begin.512");
    for (uint64_t i = 1; 2 * i <= count; i++) {
        put_request(14, 0, (const uint8_t *)"\5\0\0", 4);
        put_request(14, i, (const uint8_t *)"\7\0\0", 4);
    }
    close_it();
}

int main(int argc, char **argv) {
    static const size_t sizes[] = {512, 4096, 32767};
    uint64_t bytes = 20000000;
    if (argc < 2) return 2;
    if (argc > 2) bytes = strtoull(argv[2], NULL, 10);
    answers(argv[1], bytes / 100);
    small(argv[1], bytes);
    for (int i = 0; i < 3; i++) rows(argv[1], 1, sizes[i], bytes, 0), rows(argv[1], 8, sizes[i], bytes, 0);
    rows(argv[1], 1, 4096, bytes, 1), rows(argv[1], 8, 4096, bytes, 1);
    asks(argv[1], "asks_say.512", "say hello", bytes / 100), asks(argv[1], "asks_rows.512", "rows 1 64", bytes / 100);
    asks(argv[1], "asks_get.512", "get a", bytes / 100), begins(argv[1], bytes / 100);
    return 0;
}
