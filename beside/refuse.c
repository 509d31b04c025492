/* Refuses one allocation of a program: the Nth, where REFUSE is N (none where it is 0). At the end it
 * writes how many there were into the file that REFUSE_COUNT names. Loaded before the C library. */
#define _GNU_SOURCE
#include <dlfcn.h>
#include <errno.h>
#include <stdio.h>
#include <stdlib.h>

static unsigned long seen, refused;
static int begun;

static void *library(const char *name) {
    return dlsym(RTLD_NEXT, name);
}

__attribute__((constructor)) static void begin(void) {
    const char *number = getenv("REFUSE");
    refused = number ? strtoul(number, 0, 10) : 0;
    seen = 0;
    begun = 1;
}

static int is_refused(void) {
    return begun && ++seen == refused;
}

void *malloc(size_t size) {
    static void *(*real)(size_t);
    if (!real) real = library("malloc");
    if (is_refused()) {
        errno = ENOMEM;
        return 0;
    }
    return real(size);
}

void *realloc(void *old, size_t size) {
    static void *(*real)(void *, size_t);
    if (!real) real = library("realloc");
    if (size && is_refused()) {
        errno = ENOMEM;
        return 0;
    }
    return real(old, size);
}

void *aligned_alloc(size_t alignment, size_t size) {
    static void *(*real)(size_t, size_t);
    if (!real) real = library("aligned_alloc");
    if (is_refused()) {
        errno = ENOMEM;
        return 0;
    }
    return real(alignment, size);
}

int posix_memalign(void **made, size_t alignment, size_t size) {
    static int (*real)(void **, size_t, size_t);
    if (!real) real = library("posix_memalign");
    if (is_refused()) return ENOMEM;
    return real(made, alignment, size);
}

__attribute__((destructor)) static void end(void) {
    const char *name = getenv("REFUSE_COUNT");
    FILE *file = name ? fopen(name, "w") : 0;
    if (file) {
        fprintf(file, "%lu\n", seen);
        fclose(file);
    }
}
