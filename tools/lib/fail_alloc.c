/* An allocator to be preloaded, whose request number FAIL_ALLOC, counted from 1, is refused.
   With COUNT_ALLOC set, the number of requests goes to standard error at the end. */
#define _GNU_SOURCE
#include <dlfcn.h>
#include <errno.h>
#include <stdio.h>
#include <stdlib.h>

static long count, target = -1;
static void *(*real_malloc)(size_t);
static void *(*real_realloc)(void *, size_t);
static void *(*real_aligned_alloc)(size_t, size_t);
static int (*real_posix_memalign)(void **, size_t, size_t);

__attribute__((constructor)) static void find(void) {
    if (real_malloc)
        return;
    real_malloc = dlsym(RTLD_NEXT, "malloc");
    real_realloc = dlsym(RTLD_NEXT, "realloc");
    real_aligned_alloc = dlsym(RTLD_NEXT, "aligned_alloc");
    real_posix_memalign = dlsym(RTLD_NEXT, "posix_memalign");
    const char *number = getenv("FAIL_ALLOC");
    if (number)
        target = atol(number);
    count = 0;
}

__attribute__((destructor)) static void tell(void) {
    if (getenv("COUNT_ALLOC"))
        fprintf(stderr, "%ld\n", count);
}

static int refused(void) {
    find();
    return ++count == target;
}

void *malloc(size_t size) {
    if (refused()) {
        errno = ENOMEM;
        return NULL;
    }
    return real_malloc(size);
}

void *realloc(void *block, size_t size) {
    if (refused()) {
        errno = ENOMEM;
        return NULL;
    }
    return real_realloc(block, size);
}

void *aligned_alloc(size_t boundary, size_t size) {
    if (refused()) {
        errno = ENOMEM;
        return NULL;
    }
    return real_aligned_alloc(boundary, size);
}

int posix_memalign(void **block, size_t boundary, size_t size) {
    if (refused())
        return ENOMEM;
    return real_posix_memalign(block, boundary, size);
}
