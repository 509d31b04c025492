/* Plays each schedule that is named, and compares its report with the text beside it. */
#include "../../c/mouktelf.h"
#include <stdio.h>
#include <stdlib.h>
#include <string.h>

struct text {
    uint8_t *bytes;
    size_t length;
};

static struct text contents_of(const char *name) {
    struct text text = {NULL, 0};
    FILE *file = fopen(name, "rb");
    if (file == NULL || fseek(file, 0, SEEK_END) != 0) exit(2);
    text.length = (size_t)ftell(file);
    rewind(file);
    text.bytes = malloc(text.length + 1);
    if (text.bytes == NULL || fread(text.bytes, 1, text.length, file) != text.length) exit(2);
    fclose(file);
    return text;
}

/* Whether the report of this schedule is the text beside it. */
static int is_as_written(const char *schedule) {
    size_t stem = strlen(schedule) - strlen(".json"), count = 0, room = 1 << 20;
    char *name = malloc(stem + sizeof ".txt");
    uint8_t *out = malloc(room);
    if (name == NULL || out == NULL) exit(2);
    memcpy(name, schedule, stem);
    strcpy(name + stem, ".txt");
    struct text wanted = contents_of(name), it = contents_of(schedule);
    uint8_t status = tds_play(it.bytes, it.length, out, room, &count);
    int same = status == TDS_PLAYED && count == wanted.length && memcmp(out, wanted.bytes, count) == 0;
    if (!same) fprintf(stderr, "%s: status %d, and another text\n", schedule, status);
    free(name);
    free(out);
    free(wanted.bytes);
    free(it.bytes);
    return same;
}

int main(int argc, char **argv) {
    int failed = 0;
    for (int i = 1; i < argc; i++) failed += !is_as_written(argv[i]);
    printf("%d schedules, %d with another text\n", argc - 1, failed);
    return failed != 0;
}
