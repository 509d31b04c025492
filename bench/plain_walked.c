/* The walk of plain_wire.c, which says of each row where its values stand, as bytes come in pieces of any size: to be measured beside
   `tds_client_hear` with `tds_places_of_rows` behind it (bench/places.c).

   usage: plain_walked FILE TIMES PIECE     FILE has a COLMETADATA, rows, a DONE (bench/wire_streams.py); prints what places does. */
#define WALK_ALONE
#define WITH_PLACES
#include "plain_wire.c"

int main(int argc, char **argv)
{
    static struct walker walker;
    FILE *file = argc == 4 ? fopen(argv[1], "rb") : NULL;
    if (!file) {
        fprintf(stderr, "usage: plain_walked FILE TIMES PIECE\n");
        return 2;
    }
    fseek(file, 0, SEEK_END);
    size_t size = ftell(file), times = strtoul(argv[2], NULL, 10), piece = strtoul(argv[3], NULL, 10);
    uint8_t *bytes = malloc(size + 1);
    rewind(file);
    if (!bytes || piece == 0 || fread(bytes, 1, size, file) != size)
        return 2;
    uint64_t rows = 0, values = 0, starts = 0, lengths = 0;
    while (times--) {
        restart(&walker);
        for (size_t at = 0, end = 0; at < size;) {
            struct token token;
            end = at == end ? (size - at < piece ? size : at + piece) : end;
            long used = feed(&walker, bytes + at, end - at, &token);
            if (used < 0)
                return 1;
            at += used;
            if (token.kind != 0xD1 && token.kind != 0xD2)
                continue;
            rows++;
            for (size_t i = 0; i < walker.count; i++) {
                values += !places[i].null;
                starts += places[i].start;
                lengths += places[i].length;
            }
        }
    }
    printf("%llu %llu %llu %llu\n", (unsigned long long)rows, (unsigned long long)values, (unsigned long long)starts,
           (unsigned long long)lengths);
    return 0;
}
