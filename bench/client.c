/* A client's end of one connection from C, by libtds_c.a: a reset and a batch are asked for, in one packet, and the answer's packet,
 * of any server, is heard by tds_client_hear. Beside it stands plain_client.c, which does the same.
 *
 * usage: client TIMES      prints the bytes of all requests, and how many tokens were told
 */
#include "tds.h"
#include "tds_wire.h"
#include <stdio.h>
#include <stdlib.h>

enum { SIZE = 4096 };

static struct tds_client client;
static uint8_t out[SIZE];
static struct tds_wire walk;
static struct tds_wire_memory memory;
static struct told { struct tds_wire_token tokens[64]; size_t count; } told;
static unsigned long long asked, tokens;

static void expect(const char *what, unsigned is, unsigned wanted)
{
    if (is == wanted)
        return;
    fprintf(stderr, "client: %s: %u, and %u is wanted\n", what, is, wanted);
    exit(1);
}

static const uint8_t text[] = {'g', 0, 'e', 0, 't', 0, ' ', 0, 'a', 0};
static const uint8_t answer[] = { 4, 1, 0, 32, 0, 0, 1, 0, 0xE3, 3, 0, 18, 0, 0, 0x79, 5, 0, 0, 0, 0xFD, 0x10, 0, 0xC1, 0, 1, 0, 0, 0, 0, 0, 0, 0 };

static void exchange(const uint8_t *bytes, size_t total)
{
    size_t taken, count = 0;
    struct tds_packet packet;
    expect("mark", tds_client_mark_reset(&client, TDS_RESET_FULL), TDS_OK);
    expect("ask", tds_client_ask(&client, TDS_MESSAGE_BATCH, text, sizeof text, out, sizeof out, &count), TDS_OK);
    asked += count;
    expect("packet", tds_packet_read(bytes, total, SIZE, TDS_TO_CLIENT, &packet), TDS_OK);
    expect("hear", tds_client_hear(&client, &walk, &memory, bytes + 8, packet.length - 8, packet.status & 1, &taken, told.tokens, 64, &told.count), TDS_FINISHED);
    tokens += told.count;
}

int main(int argc, char **argv)
{
    if (argc != 2)
        return 2;
    tds_client_new(SIZE, &client);
    tds_wire_new(64, 0, 0, &walk, &memory);
    for (unsigned long times = strtoul(argv[1], NULL, 10); times; times--)
        exchange(answer, sizeof answer);
    printf("%llu %llu\n", asked, tokens);
    return 0;
}
