/* Loaded before the C library, lets one allocation fail: the one that REFUSE_AT counts to, from 1. At
   the end the number of allocations is printed on standard error. */
#define _GNU_SOURCE
#include <dlfcn.h>
#include <stdio.h>
#include <stdlib.h>
#include <unistd.h>

static long allocations = 0;

static int is_refused(void) {
    const char *at = getenv("REFUSE_AT");
    allocations++;
    return at != NULL && allocations == atol(at);
}

void *malloc(size_t size) {
    static void *(*next)(size_t);
    if (next == NULL) next = dlsym(RTLD_NEXT, "malloc");
    return is_refused() ? NULL : next(size);
}

void *realloc(void *block, size_t size) {
    static void *(*next)(void *, size_t);
    if (next == NULL) next = dlsym(RTLD_NEXT, "realloc");
    return is_refused() ? NULL : next(block, size);
}

void *aligned_alloc(size_t align, size_t size) {
    static void *(*next)(size_t, size_t);
    if (next == NULL) next = dlsym(RTLD_NEXT, "aligned_alloc");
    return is_refused() ? NULL : next(align, size);
}

int posix_memalign(void **block, size_t align, size_t size) {
    static int (*next)(void **, size_t, size_t);
    if (next == NULL) next = dlsym(RTLD_NEXT, "posix_memalign");
    return is_refused() ? 12 : next(block, align, size);
}

__attribute__((destructor)) static void tell(void) {
    char line[32];
    int length = snprintf(line, sizeof line, "%ld\n", allocations);
    if (write(2, line, (size_t)length) != length) _exit(1);
}
