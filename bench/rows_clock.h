/* What the programs that read rows from a socket print: one line for each time. */
#ifndef ROWS_CLOCK_H
#define ROWS_CLOCK_H

#include <stdint.h>
#include <stdio.h>
#include <time.h>

struct read_rows {
    uint64_t rows, sum;
};

/* A moment by the clock of the wall and by that of this program's work. */
struct moment {
    uint64_t wall, worked;
};

static uint64_t nanoseconds_of(clockid_t clock) {
    struct timespec time;
    clock_gettime(clock, &time);
    return (uint64_t)time.tv_sec * 1000000000 + (uint64_t)time.tv_nsec;
}

static struct moment moment(void) {
    struct moment now = {nanoseconds_of(CLOCK_MONOTONIC), nanoseconds_of(CLOCK_PROCESS_CPUTIME_ID)};
    return now;
}

static void print_rows(struct moment start, struct read_rows found) {
    struct moment end = moment();
    printf("%llu %llu %llu %llu\n", (unsigned long long)(end.wall - start.wall),
           (unsigned long long)(end.worked - start.worked), (unsigned long long)found.rows,
           (unsigned long long)found.sum);
}

#endif
