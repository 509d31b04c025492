/* Walks each answer of a release's examples/vectors.txt, whole and in single bytes, and looks at what is told of
 * its tokens.
 *
 * usage: vectors FILE */
#include "../../c/mouktelf.h"
#include <inttypes.h>
#include <stdio.h>
#include <stdlib.h>
#include <string.h>

#define MOST 300000

static struct tds_wire_memory memory;
static uint8_t bytes[MOST];
static char text[MOST * 3], told[MOST], wanted[MOST], *end;

static void put_place(struct tds_wire_place place) { end += sprintf(end, " %" PRIu64 " %" PRIu64, place.start, place.length); }

/* All that is told of a token. A short line has the words of a DONE, the type of an ENVCHANGE, and of others none. */
static void put_token(const struct tds_wire_token *it, int is_short) {
    end += sprintf(end, "%" PRIu64 " %02X %" PRIu64, it->start, it->kind, it->length);
    if (it->told == TDS_WIRE_TELLS_DONE)
        end += sprintf(end, " %04X %u %" PRIu64, it->status, it->command, it->value);
    else if (is_short) {
        if (it->kind == 0xE3) end += sprintf(end, " %u", it->change);
    } else {
        switch (it->told) {
        case TDS_WIRE_TELLS_TRANSACTION:
            end += sprintf(end, " %u transaction %" PRIu64 " %" PRIu64, it->change, it->value, it->old_value);
            break;
        case TDS_WIRE_TELLS_RESET: end += sprintf(end, " %u reset", it->change); break;
        case TDS_WIRE_TELLS_PACKET_SIZE: end += sprintf(end, " %u size %" PRIu32, it->change, it->size); break;
        case TDS_WIRE_TELLS_VALUES:
            end += sprintf(end, " %u values", it->change);
            put_place(it->text), put_place(it->others);
            break;
        case TDS_WIRE_TELLS_OTHER_CHANGE: end += sprintf(end, " %u other", it->change); break;
        case TDS_WIRE_TELLS_MESSAGE:
            end += sprintf(end, " message %" PRId32 " %u %u", it->number, it->state, it->severity);
            put_place(it->text), put_place(it->others);
            break;
        case TDS_WIRE_TELLS_RETURN_STATUS: end += sprintf(end, " value %" PRId32, it->number); break;
        case TDS_WIRE_TELLS_SESSION_STATE:
            end += sprintf(end, " state %" PRIu32 " %s", it->size, it->recoverable ? "recoverable" : "lost");
            put_place(it->text);
            break;
        case TDS_WIRE_TELLS_UNCLEAR: end += sprintf(end, " unclear"); break;
        }
    }
    *end++ = '\n';
}

/* Walks an answer in pieces of so many bytes. */
static void walk_all(size_t length, size_t piece, int is_short, const char *agreed) {
    struct tds_wire walk = {0};
    end = told;
    tds_wire_new(TDS_WIRE_MOST_COLUMNS, strcmp(agreed, "encryption") == 0, strcmp(agreed, "ranks") == 0, &walk, &memory);
    for (size_t at = 0; at < length;) {
        struct tds_wire_token token = {0};
        size_t count = 0, rest = piece - at % piece;
        uint8_t answer = tds_wire_next(&walk, &memory, bytes + at, rest < length - at ? rest : length - at, &count, &token);
        if (answer == TDS_WIRE_ENDED) put_token(&token, is_short);
        if (answer > TDS_WIRE_MORE) {
            sprintf(end, "fault %u at %" PRIu64 "\n", answer, walk.refused.at);
            return;
        }
        at += count;
    }
    strcpy(end, tds_wire_is_between(&walk, &memory) ? "end\n" : "cut\n");
}

static size_t read_digits(const char *digits) {
    size_t length = 0;
    for (; length < MOST && digits[2 * length] != '\n'; length++) {
        const char pair[3] = {digits[2 * length], digits[2 * length + 1], 0};
        bytes[length] = (uint8_t)strtoul(pair, NULL, 16);
    }
    return length;
}

int main(int argc, char **argv) {
    FILE *file = argc == 2 ? fopen(argv[1], "r") : NULL;
    char name[200], form[20], agreed[20];
    int count = 0, wrong = 0;
    if (file == NULL) return 2;
    while (fgets(text, sizeof text, file) && sscanf(text, "= %199s %19s %19s", name, form, agreed) == 3) {
        size_t length, room = 0;
        if (!fgets(text, sizeof text, file) || text[0] != ':') return 2;
        length = read_digits(text + 1);
        while (fgets(wanted + room, (int)(sizeof wanted - room), file) && wanted[room] != '\n') room += strlen(wanted + room);
        wanted[room] = 0;
        for (int single = 0; single < 2; single++) {
            walk_all(length, single ? 1 : length + 1, strcmp(form, "short") == 0, agreed);
            if (strcmp(told, wanted) != 0) wrong++, fprintf(stderr, "%s: it is told\n%s, and\n%sis wanted\n", name, told, wanted);
        }
        count++;
    }
    fclose(file);
    printf("%d answers, whole and in single bytes, %d wrong\n", count, wrong);
    return wrong > 0;
}
