// malloc and realloc, of which the call numbered REFUSED is refused, and with ALL each one from there on: for LD_PRELOAD. With ALL the number
// of refused calls, and of all calls, is written to standard error at the end.
#define _GNU_SOURCE
#include <dlfcn.h>
#include <stdio.h>
#include <stdlib.h>

static long seen, first = -1, refused;
static int is_all;

static int is_refused(void) {
    if (first < 0) {
        const char *text = getenv("REFUSED");
        first = text ? atol(text) : 0;
        is_all = getenv("ALL") != NULL;
    }
    ++seen;
    int is = first > 0 && (is_all ? seen >= first : seen == first);
    refused += is;
    return is;
}

__attribute__((destructor)) static void tell(void) {
    if (is_all) dprintf(2, "refused calls: %ld of %ld\n", refused, seen);
}

void *malloc(size_t size) {
    static void *(*next)(size_t);
    if (!next) next = dlsym(RTLD_NEXT, "malloc");
    return is_refused() ? NULL : next(size);
}

void *realloc(void *old, size_t size) {
    static void *(*next)(void *, size_t);
    if (!next) next = dlsym(RTLD_NEXT, "realloc");
    return is_refused() ? NULL : next(old, size);
}
