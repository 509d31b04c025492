/* Sends the rows that `streams` wrote to any TDS client, to measure the client: the bytes lie in
 * memory, so the sending is all that it does. It serves one connection after the other, on a free
 * port of 127.0.0.1 that it prints.
 *
 * PRELOGIN and LOGIN7 are answered where they come (MS-TDS 2.2.6.4, 2.2.6.5); a client that begins
 * logged in may do without. The batch `rows N` is answered by FOLDER/rowsN.4096, or to a client of
 * TDS 7.1 by FOLDER/rowsN.4096.narrow; another one by a row, if it selects, or by DONE alone.
 *
 * usage: rows_server FOLDER
 */
#define _POSIX_C_SOURCE 200809L
#include <arpa/inet.h>
#include <netinet/tcp.h>
#include <stdint.h>
#include <stdio.h>
#include <stdlib.h>
#include <string.h>
#include <sys/socket.h>
#include <unistd.h>

static void stop(const char *why) {
    perror(why);
    exit(1);
}

struct bytes {
    uint8_t *at;
    size_t length;
};

static struct bytes file_of(const char *folder, int columns, int narrow) {
    char path[4096];
    struct bytes file;
    snprintf(path, sizeof path, "%s/rows%d.4096%s", folder, columns, narrow ? ".narrow" : "");
    FILE *from = fopen(path, "rb");
    if (from == NULL || fseek(from, 0, SEEK_END) != 0) stop(path);
    file.length = (size_t)ftell(from);
    file.at = malloc(file.length + 1);
    rewind(from);
    if (file.at == NULL || fread(file.at, 1, file.length, from) != file.length) stop(path);
    fclose(from);
    return file;
}

static int put(int to, const uint8_t *bytes, size_t length) {
    while (length > 0) {
        ssize_t sent = send(to, bytes, length, MSG_NOSIGNAL);
        if (sent <= 0) return 0;
        bytes += sent, length -= (size_t)sent;
    }
    return 1;
}

/* A packet of an answer that is being written. */
static uint8_t packet[4096];
static size_t had;

static void add(const void *bytes, size_t length) {
    memcpy(packet + had, bytes, length);
    had += length;
}

static void add_units(const char *text) {
    for (; *text; text++) add((uint8_t[]){(uint8_t)*text, 0}, 2);
}

static void add_done(int narrow) {
    static const uint8_t done[13] = {0xFD};
    add(done, narrow ? 9 : 13);
}

static int put_packet(int to) {
    uint8_t header[8] = {4, 1, (uint8_t)(had >> 8), (uint8_t)had, 0, 0, 1, 0};
    memcpy(packet, header, 8);
    return put(to, packet, had);
}

/* A collation, LOGINACK, the packet size of 4,096 bytes, and DONE (MS-TDS 2.2.7.9, 2.2.7.14, 2.2.7.6). */
static int let_in(int to, const uint8_t *version, int narrow) {
    uint8_t acknowledged[] = {0xAD, 20, 0, 1, version[3], version[2], version[1], version[0], 5};
    add("\xE3\x08\0\7\5\x09\4\xD0\0\x34\0", 11);
    add(acknowledged, sizeof acknowledged);
    add_units("bench");
    add("\x0B\0\0\1", 4);
    add("\xE3\x13\0\4\4", 5);
    add_units("4096");
    add("\4", 1);
    add_units("4096");
    add_done(narrow);
    return put_packet(to);
}

/* One row of one INT4 that is 38: a client asks for the greatest precision of a number. */
static int put_row(int to, int narrow) {
    add("\x81\1\0", 3);
    add("\0\0\0\0\0\0\x38\1n", narrow ? 0 : 9);
    add("\0\0\0\0\x38\1n", narrow ? 7 : 0);
    add("\0\xD1\x26\0\0\0", 6);
    add_done(narrow);
    return put_packet(to);
}

static int ends_with(const uint8_t *data, size_t length, const char *text) {
    size_t units = strlen(text);
    if (length < 2 * units) return 0;
    for (size_t i = 0; i < units; i++)
        if (data[length - 2 * units + 2 * i] != (uint8_t)text[i]) return 0;
    return 1;
}

/* Whether a text of the client begins so; its headers, if it has any, stand before. */
static int selects(const uint8_t *data, size_t length) {
    size_t from = length > 22 && data[0] == 22 && data[1] == 0 ? 22 : 0;
    return length >= from + 12 && ends_with(data, from + 12, "SELECT");
}

static struct bytes rows1[2], rows8[2];

static int answer(int to, uint8_t kind, const uint8_t *data, size_t length, int *narrow) {
    /* version 11.0, and encryption is not supported */
    static const uint8_t prepared[] = {0, 0, 11, 0, 6, 1, 0, 17, 0, 1, 0xFF, 11, 0, 0, 0, 0, 0, 2};
    had = 8;
    if (kind == 0x12) {
        add(prepared, sizeof prepared);
        return put_packet(to);
    }
    if (kind == 0x10 && length >= 8) {
        *narrow = data[7] == 0x71 || (data[7] == 7 && data[6] == 1);
        return let_in(to, data + 4, *narrow);
    }
    if (ends_with(data, length, "rows 1")) return put(to, rows1[*narrow].at, rows1[*narrow].length);
    if (ends_with(data, length, "rows 8")) return put(to, rows8[*narrow].at, rows8[*narrow].length);
    if (selects(data, length)) return put_row(to, *narrow);
    add_done(*narrow);
    return put_packet(to);
}

static int take(int from, uint8_t *bytes, size_t length) {
    while (length > 0) {
        ssize_t taken = recv(from, bytes, length, 0);
        if (taken <= 0) return 0;
        bytes += taken, length -= (size_t)taken;
    }
    return 1;
}

static void serve(int with) {
    static uint8_t header[8], message[65536];
    size_t length = 0;
    int narrow = 0;
    while (take(with, header, 8)) {
        size_t whole = (size_t)header[2] << 8 | header[3];
        if (whole < 8 || length + whole > sizeof message || !take(with, message + length, whole - 8)) return;
        length += whole - 8;
        if ((header[1] & 1) == 0) continue;
        if (!answer(with, header[0], message, length, &narrow)) return;
        length = 0;
    }
}

int main(int argc, char **argv) {
    struct sockaddr_in here = {.sin_family = AF_INET, .sin_addr.s_addr = htonl(INADDR_LOOPBACK)};
    socklen_t size = sizeof here;
    int listening = socket(AF_INET, SOCK_STREAM, 0), on = 1;
    if (argc != 2) return 2;
    for (int narrow = 0; narrow < 2; narrow++) {
        rows1[narrow] = file_of(argv[1], 1, narrow);
        rows8[narrow] = file_of(argv[1], 8, narrow);
    }
    if (listening < 0 || bind(listening, (struct sockaddr *)&here, size) != 0) stop("bind");
    if (listen(listening, 8) != 0 || getsockname(listening, (struct sockaddr *)&here, &size) != 0) stop("listen");
    printf("%d\n", ntohs(here.sin_port));
    fflush(stdout);
    for (;;) {
        int with = accept(listening, NULL, NULL);
        if (with < 0) stop("accept");
        setsockopt(with, IPPROTO_TCP, TCP_NODELAY, &on, sizeof on);
        serve(with);
        close(with);
    }
}
