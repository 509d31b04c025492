/* Counts the connections that a program accepts: it stands before the C library (LD_PRELOAD), and as the
   program ends it writes the count to the file that ACCEPTS names. tests/loopback builds it. */
#define _GNU_SOURCE
#include <dlfcn.h>
#include <stdio.h>
#include <stdlib.h>
#include <sys/socket.h>

static unsigned count;

int accept(int listener, struct sockaddr *address, socklen_t *length)
{
    int (*next)(int, struct sockaddr *, socklen_t *) = dlsym(RTLD_NEXT, "accept");
    int made = next(listener, address, length);
    count += made >= 0;
    return made;
}

int accept4(int listener, struct sockaddr *address, socklen_t *length, int flags)
{
    int (*next)(int, struct sockaddr *, socklen_t *, int) = dlsym(RTLD_NEXT, "accept4");
    int made = next(listener, address, length, flags);
    count += made >= 0;
    return made;
}

__attribute__((destructor)) static void tell(void)
{
    const char *name = getenv("ACCEPTS");
    FILE *file = name ? fopen(name, "w") : NULL;
    if (file) {
        fprintf(file, "%u\n", count);
        fclose(file);
    }
}
