/* The exchanges of client.c and of tests/crates/test_listen/src/asking.rs in plain C: a client's end of one connection, which asks
 * for a reset and a batch, in one packet, and hears the answer's packet. The walk is the one of plain_wire.c; what the server's tokens change is followed: the transaction, a
 * reset that was asked for, an answer's end (MS-TDS 2.2.7).
 *
 * usage: plain_client TIMES      prints the bytes of all requests, and how many tokens were told
 */
#define WALK_ALONE
#include "plain_wire.c"

enum { SIZE = 4096 };
enum state { IDLE, SENDING, READING };

static struct client {
    uint8_t state, asks_reset, awaits_reset, final;
    uint64_t descriptor;
    size_t length, sent;
    uint8_t message[4022];
    struct walker walker;
} client;

static uint8_t out[SIZE];
static size_t filled;
static struct told { struct token tokens[64]; size_t count; } told;

static void stop(const char *why)
{
    fprintf(stderr, "plain_client: %s\n", why);
    exit(1);
}

/* Begins a batch, in the transaction that the server named last (MS-TDS 2.2.6.7, 2.2.5.3). */
static int start(const uint16_t *text, size_t units)
{
    static const uint8_t headers[22] = { 22, 0, 0, 0, 18, 0, 0, 0, 2, 0, [18] = 1 };
    if (client.state != IDLE || units > 2000)
        return 0;
    memcpy(client.message, headers, sizeof headers);
    if (!client.asks_reset)
        memcpy(client.message + 10, &client.descriptor, 8);
    memcpy(client.message + 22, text, 2 * units);
    client.length = 22 + 2 * units;
    client.sent = 0;
    client.state = SENDING;
    return 1;
}

/* Writes its next packet: 1 where it is the last. */
static int send_packet(void)
{
    if (client.state != SENDING)
        return -1;
    size_t left = client.length - client.sent, part = left < SIZE - 8 ? left : SIZE - 8;
    int ends = part == left;
    out[0] = 1;
    out[1] = (uint8_t)(ends | (client.asks_reset && !client.sent ? 8 : 0));
    out[2] = (uint8_t)((part + 8) >> 8);
    out[3] = (uint8_t)(part + 8);
    out[4] = out[5] = out[7] = 0;
    out[6] = (uint8_t)(client.sent / (SIZE - 8) + 1);
    memcpy(out + 8, client.message + client.sent, part);
    client.sent += part;
    filled = part + 8;
    if (ends) {
        client.state = READING;
        client.awaits_reset = client.asks_reset;
        client.asks_reset = 0;
    }
    return ends;
}

/* What a change of the environment means for the client. */
static void change(const uint8_t *head)
{
    switch (head[0]) {
    case 8: case 11:
        if (head[1] != 8)
            stop("descriptor");
        memcpy(&client.descriptor, head + 2, 8);
        return;
    case 9: case 10: case 17: client.descriptor = 0; return;
    case 18:
        if (!client.awaits_reset)
            stop("reset");
        client.awaits_reset = 0;
        client.descriptor = 0;
        return;
    }
}

/* Takes a packet: 1 where the answer has ended with it. */
static int came(const uint8_t *bytes, size_t count)
{
    if (client.state != READING || count < 8 || bytes[0] != 4)
        return -1;
    size_t length = (size_t)bytes[2] << 8 | bytes[3];
    int ends = bytes[1] & 1;
    if (length < 8 || length > SIZE || length > count)
        return -1;
    for (bytes += 8, count = length - 8; count;) {
        struct token token;
        long used = feed(&client.walker, bytes, count, &token);
        if (used < 0)
            return -1;
        bytes += used;
        count -= used;
        if (!token.kind)
            continue;
        if (token.kind == 0xE3)
            change(client.walker.head);
        if (token.kind >= 0xFD)
            client.final = !(client.walker.head[0] & 1);
        if (told.count == 64)
            stop("told");
        told.tokens[told.count++] = token;
    }
    if (!ends)
        return 0;
    if (!client.final || client.walker.run || client.walker.due != TOKEN)
        return -1;
    restart(&client.walker);
    client.final = 0;
    client.state = IDLE;
    return 1;
}

static const uint16_t text[] = {'g', 'e', 't', ' ', 'a'};
static const uint8_t answer[] = {
    4, 1, 0, 32, 0, 0, 1, 0, 0xE3, 3, 0, 18, 0, 0, 0x79, 5, 0, 0, 0, 0xFD, 0x10, 0, 0xC1, 0, 1, 0, 0, 0, 0, 0, 0, 0};
static unsigned long long asked, tokens;

static void exchange(void)
{
    told.count = 0;
    client.asks_reset = 1;
    if (!start(text, 5) || send_packet() != 1 || came(answer, sizeof answer) != 1)
        stop("exchange");
    asked += filled;
    tokens += told.count;
}

int main(int argc, char **argv)
{
    if (argc != 2)
        return 2;
    for (unsigned long times = strtoul(argv[1], NULL, 10); times; times--)
        exchange();
    printf("%llu %llu\n", asked, tokens);
    return 0;
}
