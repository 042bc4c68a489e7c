/* Refuses one request for memory of a program that is run with it before the C library: tests/run memory compiles it. */
#define _GNU_SOURCE
#include <dlfcn.h>
#include <fcntl.h>
#include <stdatomic.h>
#include <stdlib.h>
#include <sys/mman.h>

/* How many requests were made, in a file, since the program ends without a destructor. */
static atomic_long *made;
static long refused;

__attribute__((constructor)) static void begin(void) {
    int file = open(getenv("MADE"), O_RDWR);
    made = mmap(NULL, sizeof *made, PROT_READ | PROT_WRITE, MAP_SHARED, file, 0);
    refused = atol(getenv("REFUSED"));
}

static int is_refused(void) {
    return made && atomic_fetch_add(made, 1) + 1 == refused;
}

void *malloc(size_t size) {
    static void *(*next)(size_t);
    if (!next) next = (void *(*)(size_t))dlsym(RTLD_NEXT, "malloc");
    return is_refused() ? NULL : next(size);
}

void *realloc(void *old, size_t size) {
    static void *(*next)(void *, size_t);
    if (!next) next = (void *(*)(void *, size_t))dlsym(RTLD_NEXT, "realloc");
    return is_refused() ? NULL : next(old, size);
}
