/* Makes the calls to files fail: preloaded by tests/faults.
   FAIL_CALL: the call of this number, of the writes, syncs and renames of files, answers an error (EIO), with no effect, or, where
   FAIL_LATE is set, behind its effect. FILE_ROOM: so many bytes are written to files in all, and then a write answers ENOSPC.
   Standard input, output and errors are left alone. */
#define _GNU_SOURCE
#include <dlfcn.h>
#include <errno.h>
#include <stdio.h>
#include <stdlib.h>
#include <unistd.h>

static long calls, written;

static long number(const char *name)
{
    const char *text = getenv(name);
    return text ? atol(text) : -1;
}

static int fails(void)
{
    return ++calls == number("FAIL_CALL");
}

static int failed(void)
{
    errno = EIO;
    return -1;
}

static ssize_t given(const char *symbol, int file, const void *bytes, size_t count)
{
    ssize_t (*real)(int, const void *, size_t) = (ssize_t(*)(int, const void *, size_t))dlsym(RTLD_NEXT, symbol);
    if (file <= 2)
        return real(file, bytes, count);
    int late = getenv("FAIL_LATE") != NULL, now = fails();
    if (now && !late)
        return failed();
    long room = number("FILE_ROOM");
    if (room >= 0) {
        if (written >= room) {
            errno = ENOSPC;
            return -1;
        }
        if ((size_t)(room - written) < count)
            count = (size_t)(room - written);
    }
    ssize_t done = real(file, bytes, count);
    if (done > 0)
        written += done;
    return now ? failed() : done;
}

ssize_t write(int file, const void *bytes, size_t count)
{
    return given("write", file, bytes, count);
}

ssize_t __write(int file, const void *bytes, size_t count)
{
    return given("__write", file, bytes, count);
}

static int synced(const char *symbol, int file)
{
    int (*real)(int) = (int (*)(int))dlsym(RTLD_NEXT, symbol);
    int now = fails();
    if (now && !getenv("FAIL_LATE"))
        return failed();
    int done = real(file);
    return now ? failed() : done;
}

int fsync(int file)
{
    return synced("fsync", file);
}

int fdatasync(int file)
{
    return synced("fdatasync", file);
}

int rename(const char *from, const char *to)
{
    int (*real)(const char *, const char *) = (int (*)(const char *, const char *))dlsym(RTLD_NEXT, "rename");
    int now = fails();
    if (now && !getenv("FAIL_LATE"))
        return failed();
    int done = real(from, to);
    return now ? failed() : done;
}
