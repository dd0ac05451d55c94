/* Loaded before the C library: lets the allocation of the number FAIL_AT fail, counted from 1, and no other. */
#define _GNU_SOURCE
#include <dlfcn.h>
#include <errno.h>
#include <stddef.h>
#include <stdlib.h>

static int fails(void)
{
    static long at = -1, count = 0;
    if (at < 0) {
        const char *number = getenv("FAIL_AT");
        at = number ? atol(number) : 0;
    }
    if (at == 0 || ++count != at)
        return 0;
    errno = ENOMEM;
    return 1;
}

void *malloc(size_t size)
{
    static void *(*next)(size_t);
    if (!next)
        next = dlsym(RTLD_NEXT, "malloc");
    return fails() ? NULL : next(size);
}

void *realloc(void *block, size_t size)
{
    static void *(*next)(void *, size_t);
    if (!next)
        next = dlsym(RTLD_NEXT, "realloc");
    return fails() ? NULL : next(block, size);
}
