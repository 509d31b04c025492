/* Judges recorded connections, and compares what is found with what the file says. The file has a line
 * for each piece, as tests/crates/test_judge/data/captures.txt says.
 *
 * usage: judge FILE */
#include "../../c/mouktelf.h"
#include <inttypes.h>
#include <stdio.h>
#include <stdlib.h>
#include <string.h>

enum { MOST_PIECES = 1000, MOST_BYTES = 1 << 21, MOST_FINDINGS = 100, MOST_LINE = 1 << 22 };

static struct tds_judge_piece pieces[MOST_PIECES];
static size_t piece_count;
static uint8_t bytes[MOST_BYTES];
static size_t length;

/* Appends the bytes of hexadecimal digits. How many they are. */
static size_t put_bytes(const char *digits) {
    size_t count = 0;
    unsigned byte;
    while (length < MOST_BYTES && sscanf(digits + 2 * count, "%2x", &byte) == 1) {
        bytes[length++] = (uint8_t)byte;
        count++;
    }
    return count;
}

/* Takes a line. 0 where it is none. */
static int take_line(const char *line) {
    static char digits[MOST_LINE];
    char word[10];
    struct tds_judge_piece piece = {0, 0, TDS_JUDGE_CLOSED};
    digits[0] = 0;
    if (piece_count == MOST_PIECES || sscanf(line, "%9s %" SCNu64 " %s", word, &piece.time, digits) < 2) return 0;
    if (!strcmp(word, ">")) piece.what = TDS_JUDGE_TO_SERVER;
    else if (!strcmp(word, "<")) piece.what = TDS_JUDGE_TO_CLIENT;
    else if (!strcmp(word, "borrow")) piece.what = TDS_JUDGE_BORROWED;
    else if (strcmp(word, "close")) return 0;
    piece.length = put_bytes(digits);
    pieces[piece_count++] = piece;
    return 1;
}

/* Judges what was taken. Whether that is what the line says. */
static int is_found(const char *name, const char *wanted) {
    struct tds_judge_limits limits = {5000000, 16, 0, 0};
    struct tds_judge_finding findings[MOST_FINDINGS];
    char text[4096] = "found";
    size_t count = 0;
    uint8_t answer = tds_judge(&limits, pieces, piece_count, bytes, length, findings, MOST_FINDINGS, &count);
    if (answer != TDS_JUDGED) {
        printf("%s: answered %u\n", name, answer);
        return 0;
    }
    for (size_t i = 0; i < count; i++) {
        size_t end = strlen(text);
        snprintf(text + end, sizeof text - end, " %u@%" PRIu64 "=%" PRIu64, findings[i].number,
                 findings[i].offset, findings[i].value);
    }
    if (!strcmp(text, wanted)) return 1;
    printf("%s: %s, and the file has %s\n", name, text, wanted);
    return 0;
}

/* What is answered where nothing can be judged: nothing is written. */
static int is_refused(void) {
    struct tds_judge_limits limits = {0, 16, 0, 0};
    struct tds_judge_limits wide = {0, TDS_JUDGE_MOST_COLUMNS + 1, 0, 0};
    struct tds_judge_piece long_piece = {0, 9, TDS_JUDGE_TO_SERVER};
    struct tds_judge_piece two_resets = {0, 8, TDS_JUDGE_TO_SERVER};
    uint8_t head[8] = {1, 0x19, 0, 8, 0, 0, 1, 0};
    struct tds_judge_finding finding = {7, 7, 7, 7, 7, 7};
    size_t count = 9;
    int is_well = tds_judge(&limits, &long_piece, 1, head, 8, &finding, 1, &count) == TDS_JUDGE_MISFIT && count == 0;
    is_well &= tds_judge(&wide, &two_resets, 1, head, 8, &finding, 1, &count) == TDS_JUDGE_MISFIT;
    is_well &= tds_judge(&limits, &two_resets, 1, head, 8, &finding, 0, &count) == TDS_JUDGE_NO_ROOM && count == 1;
    is_well &= finding.number == 7 && finding.offset == 7;
    is_well &= tds_judge(&limits, &two_resets, 1, head, 8, &finding, 1, &count) == TDS_JUDGED && count == 1;
    /* both reset bits, told at the header's last byte; the status goes with it */
    is_well &= finding.number == 14 && finding.level == TDS_JUDGE_BREACH && finding.offset == 7 &&
               finding.value == 0x19 && finding.direction == TDS_JUDGE_TO_SERVER;
    return is_well;
}

int main(int count, char **words) {
    static char line[MOST_LINE];
    char name[200] = "";
    unsigned captures = 0;
    int is_well = 1;
    FILE *file = count == 2 ? fopen(words[1], "r") : NULL;
    if (!file) {
        fputs("usage: judge FILE\n", stderr);
        return 2;
    }
    while (fgets(line, sizeof line, file)) {
        line[strcspn(line, "\r\n")] = 0;
        if (!strncmp(line, "= ", 2)) {
            snprintf(name, sizeof name, "%.190s", line + 2);
            piece_count = length = 0;
            captures++;
        } else if (!strncmp(line, "found", 5)) {
            is_well &= is_found(name, line);
        } else if (line[0] && line[0] != '#' && !take_line(line)) {
            printf("%s: no line\n", name);
            is_well = 0;
        }
    }
    fclose(file);
    if (!is_refused()) {
        puts("what isn't judged is answered otherwise");
        is_well = 0;
    }
    printf("%u captures\n", captures);
    return is_well ? 0 : 1;
}
