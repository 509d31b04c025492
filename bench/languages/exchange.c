/* One request and its answer by known bytes, so many times: microseconds each, the fastest of 7 runs. */
#include "mouktelf.h"
#include <stdio.h>
#include <stdlib.h>
#include <string.h>
#include <time.h>

static const uint8_t ANSWER[] = {
    0x04, 0x00, 0x00, 0x2C, 0, 0, 1, 0, 0x81, 1, 0, 0, 0, 0, 0, 0, 0, 0x38, 1, 0x6E, 0, 0xD1, 5, 0, 0, 0, 0xD1, 6, 0, 0, 0,
    0xFD, 0x11, 0, 0, 0, 2, 0, 0, 0, 0, 0, 0, 0, 0x04, 0x01, 0x00, 0x15, 0, 0, 2, 0, 0xFD, 0, 0, 0, 0, 0, 0, 0, 0, 0, 0, 0, 0};
static const uint16_t TEXT[] = {'r', 'o', 'w', 's', ' ', '5', ' ', '2'};

static void stop(int number) {
    fprintf(stderr, "%d\n", number);
    exit(1);
}

static int exchange(struct tds_client *client) {
    uint8_t message[TDS_MESSAGE_MOST], out[512], taken = 0;
    struct tds_packet packets[4] = {{0}};
    struct tds_token tokens[16] = {{0}};
    size_t length = 0, count = 0, at = 0;
    int told = 0;
    if (tds_client_start_batch(client, TEXT, 8, message, sizeof message, &length) != TDS_OK) stop(1);
    if (tds_client_send(client, message, length, out, sizeof out, &count) != TDS_LAST) stop(2);
    tds_packets_read(ANSWER, sizeof ANSWER, 512, TDS_TO_CLIENT, packets, 4, &count);
    for (size_t i = 0, many = count; i < many; i++) {
        struct tds_cursor cursor = {0, client->columns};
        taken = tds_client_take(client, ANSWER + at, packets[i].length);
        if (tds_tokens_next(ANSWER + at + 8, packets[i].length - 8, &cursor, tokens, 16, &count) != TDS_END) stop(3);
        told += (int)count;
        at += packets[i].length;
    }
    if (taken != TDS_FINISHED) stop(taken);
    return told;
}

int main(void) {
    struct tds_client client = {0};
    double best = 1e9;
    long told = 0, times = 200000;
    tds_client_new(512, &client);
    for (int run = 0; run < 7; run++) {
        struct timespec a, b;
        clock_gettime(CLOCK_MONOTONIC, &a);
        for (long i = 0; i < times; i++) told += exchange(&client);
        clock_gettime(CLOCK_MONOTONIC, &b);
        double took = ((double)(b.tv_sec - a.tv_sec) * 1e9 + (double)(b.tv_nsec - a.tv_nsec)) / 1000 / (double)times;
        if (took < best) best = took;
    }
    printf("%.2f microseconds, %ld tokens\n", best, told / (7 * times));
    return 0;
}
