/* Loaded before the C library: counts the calls of malloc and realloc, in all threads, and lets one of them fail, that of
   the number FAILING_ALLOCATION, from 1 on. At the end, which is by _exit, the count is written to standard error. */
#define _GNU_SOURCE
#include <dlfcn.h>
#include <stdio.h>
#include <stdlib.h>

static _Atomic unsigned long calls;
static unsigned long failing;

__attribute__((constructor)) static void begin(void) {
    const char *number = getenv("FAILING_ALLOCATION");
    calls = 0;
    failing = number ? strtoul(number, NULL, 10) : 0;
}

void _exit(int status) {
    void (*next)(int) = (void (*)(int))dlsym(RTLD_NEXT, "_exit");
    fprintf(stderr, "%lu\n", calls);
    next(status);
    __builtin_unreachable();
}

void *malloc(size_t size) {
    static void *(*next)(size_t);
    if (!next) next = (void *(*)(size_t))dlsym(RTLD_NEXT, "malloc");
    return ++calls == failing ? NULL : next(size);
}

void *realloc(void *old, size_t size) {
    static void *(*next)(void *, size_t);
    if (!next) next = (void *(*)(void *, size_t))dlsym(RTLD_NEXT, "realloc");
    return ++calls == failing ? NULL : next(old, size);
}
