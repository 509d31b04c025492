/* Prints each token of an answer, whatever is in it: where it is, its first byte, its length, and
 * what is told of it. The bytes are the data of its packets, as hexadecimal digits in a file.
 *
 * usage: tokens FILE [BYTES]      in pieces of so many bytes, 4,088 if not said otherwise */
#include "../../c/mouktelf.h"
#include <ctype.h>
#include <inttypes.h>
#include <stdio.h>
#include <stdlib.h>

static struct tds_wire_memory memory;

static void print_place(const char *what, struct tds_wire_place place) {
    printf(" %s %" PRIu64 "+%" PRIu64, what, place.start, place.length);
}

static void print_token(const struct tds_wire_token *token) {
    printf("%" PRIu64 " %02x %" PRIu64, token->start, token->kind, token->length);
    switch (token->told) {
    case TDS_WIRE_TELLS_DONE:
        printf(" status %04x command %u rows %" PRIu64, token->status, token->command, token->value);
        break;
    case TDS_WIRE_TELLS_TRANSACTION:
        printf(" change %u new %" PRIu64 " old %" PRIu64, token->change, token->value, token->old_value);
        break;
    case TDS_WIRE_TELLS_RESET: printf(" reset"); break;
    case TDS_WIRE_TELLS_PACKET_SIZE: printf(" packet size %" PRIu32, token->size); break;
    case TDS_WIRE_TELLS_VALUES:
        printf(" change %u", token->change);
        print_place("new", token->text), print_place("old", token->others);
        break;
    case TDS_WIRE_TELLS_OTHER_CHANGE: printf(" change %u", token->change); break;
    case TDS_WIRE_TELLS_MESSAGE:
        printf(" message %" PRId32 " state %u class %u", token->number, token->state, token->severity);
        print_place("text", token->text), print_place("names", token->others);
        break;
    case TDS_WIRE_TELLS_RETURN_STATUS: printf(" %" PRId32, token->number); break;
    case TDS_WIRE_TELLS_SESSION_STATE:
        printf(" state %" PRIu32 " recoverable %u", token->size, token->recoverable);
        print_place("states", token->text);
        break;
    case TDS_WIRE_TELLS_UNCLEAR: printf(" unclear"); break;
    }
    putchar('\n');
}

/* Walks one piece. 0 where its bytes were refused. */
static int walk_piece(struct tds_wire *walk, const uint8_t *bytes, size_t length) {
    while (length > 0) {
        struct tds_wire_token token = {0};
        size_t count = 0;
        uint8_t answer = tds_wire_next(walk, &memory, bytes, length, &count, &token);
        if (answer == TDS_WIRE_ENDED) print_token(&token);
        if (answer > TDS_WIRE_MORE) return 0;
        bytes += count, length -= count;
    }
    return 1;
}

/* The bytes of a file of hexadecimal digits; blanks don't matter. */
static size_t read_bytes(FILE *file, uint8_t *bytes, size_t room) {
    size_t digits = 0;
    for (int c; (c = getc(file)) != EOF && digits < 2 * room;) {
        if (!isxdigit(c)) continue;
        uint8_t value = (uint8_t)(isdigit(c) ? c - '0' : tolower(c) - 'a' + 10);
        bytes[digits / 2] = (uint8_t)(digits % 2 ? bytes[digits / 2] << 4 | value : value);
        digits++;
    }
    return digits / 2;
}

int main(int argc, char **argv) {
    static uint8_t bytes[1 << 20];
    FILE *file = argc > 1 ? fopen(argv[1], "r") : NULL;
    size_t size = argc > 2 ? strtoul(argv[2], NULL, 10) : 4088;
    if (file == NULL || size == 0) return 2;
    size_t length = read_bytes(file, bytes, sizeof bytes);
    fclose(file);

    struct tds_wire walk = {0};
    tds_wire_new(TDS_WIRE_MOST_COLUMNS, 0, 0, &walk, &memory);
    for (size_t at = 0; at < length; at += size)
        if (!walk_piece(&walk, bytes + at, length - at < size ? length - at : size)) {
            printf("fault %u at %" PRIu64 "\n", walk.refused.fault, walk.refused.at);
            return 1;
        }
    puts(tds_wire_is_between(&walk, &memory) ? "end" : "cut");
    return 0;
}
