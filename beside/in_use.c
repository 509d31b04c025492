/* Counts what a program has in use of the memory that it asks for: the bytes, and how many pieces, as two numbers of eight
 * bytes in the file that IN_USE names. Loaded before the C library. It is written for programs of one thread. */
#define _GNU_SOURCE
#include <dlfcn.h>
#include <fcntl.h>
#include <malloc.h>
#include <stdint.h>
#include <stdlib.h>
#include <sys/mman.h>
#include <unistd.h>

static uint64_t own[2], *in_use = own;

static void *library(const char *name) {
    return dlsym(RTLD_NEXT, name);
}

__attribute__((constructor)) static void begin(void) {
    const char *name = getenv("IN_USE");
    int file = name ? open(name, O_RDWR | O_CREAT, 0600) : -1;
    if (file < 0 || ftruncate(file, sizeof own)) return;
    void *found = mmap(0, sizeof own, PROT_READ | PROT_WRITE, MAP_SHARED, file, 0);
    close(file);
    if (found == MAP_FAILED) return;
    in_use = found;
    in_use[0] = own[0];
    in_use[1] = own[1];
}

static void *add(void *it) {
    if (it) {
        in_use[0] += malloc_usable_size(it);
        in_use[1]++;
    }
    return it;
}

static void take(void *it) {
    if (it) {
        in_use[0] -= malloc_usable_size(it);
        in_use[1]--;
    }
}

void *malloc(size_t size) {
    static void *(*real)(size_t);
    if (!real) real = library("malloc");
    return add(real(size));
}

void *realloc(void *old, size_t size) {
    static void *(*real)(void *, size_t);
    if (!real) real = library("realloc");
    take(old);
    void *made = real(old, size);
    return made || !size ? add(made) : (add(old), made);
}

void free(void *it) {
    static void (*real)(void *);
    if (!real) real = library("free");
    take(it);
    real(it);
}
