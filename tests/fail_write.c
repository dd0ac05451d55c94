/* Makes standard output refuse: preloaded by tests/writers.
   WRITE_MOST is how many bytes it takes in all, WRITE_PIECE how many of them at one call (0: all that are handed over);
   after that a call answers WRITE_THEN: 0 (it takes nothing), or -1 (an error, ENOSPC). */
#define _GNU_SOURCE
#include <dlfcn.h>
#include <errno.h>
#include <stdlib.h>
#include <unistd.h>

static long taken;

static long number(const char *name, long otherwise)
{
    const char *text = getenv(name);
    return text ? atol(text) : otherwise;
}

static ssize_t given(const char *symbol, int file, const void *bytes, size_t count)
{
    ssize_t (*real)(int, const void *, size_t) = (ssize_t(*)(int, const void *, size_t))dlsym(RTLD_NEXT, symbol);
    long most = number("WRITE_MOST", 0), piece = number("WRITE_PIECE", 0), then = number("WRITE_THEN", 0);
    if (file != 1)
        return real(file, bytes, count);
    if (taken >= most) {
        errno = ENOSPC;
        return then;
    }
    if (piece > 0 && (size_t)piece < count)
        count = (size_t)piece;
    if ((size_t)(most - taken) < count)
        count = (size_t)(most - taken);
    ssize_t done = real(file, bytes, count);
    if (done > 0)
        taken += done;
    return done;
}

ssize_t write(int file, const void *bytes, size_t count)
{
    return given("write", file, bytes, count);
}

ssize_t __write(int file, const void *bytes, size_t count)
{
    return given("__write", file, bytes, count);
}
