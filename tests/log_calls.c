/* Logs what a program makes, writes, syncs, renames and removes, call by call, to the file that CALLS names: preloaded by tests/syncs
   and tests/crashes. A sync takes PAUSE microseconds more. */
#define _GNU_SOURCE
#include <dlfcn.h>
#include <fcntl.h>
#include <stdarg.h>
#include <stdio.h>
#include <stdlib.h>
#include <string.h>
#include <unistd.h>

static ssize_t real_write(int file, const void *bytes, size_t count)
{
    ssize_t (*real)(int, const void *, size_t) = (ssize_t(*)(int, const void *, size_t))dlsym(RTLD_NEXT, "write");
    return real(file, bytes, count);
}

static int real_open(const char *path, int flags, mode_t mode)
{
    int (*real)(const char *, int, ...) = (int (*)(const char *, int, ...))dlsym(RTLD_NEXT, "open");
    return real(path, flags, mode);
}

/* A line: the call, the file by its last name, and what was written, in hexadecimal digits. */
static void note(const char *call, const char *name, const void *bytes, size_t count)
{
    static int log = -1;
    if (log < 0)
        log = real_open(getenv("CALLS"), O_WRONLY | O_APPEND | O_CREAT, 0600);
    size_t room = strlen(call) + strlen(name) + 2 * count + 4, at;
    char *line = malloc(room);
    at = (size_t)sprintf(line, "%s %s ", call, name);
    for (size_t k = 0; k < count; k++)
        at += (size_t)sprintf(line + at, "%02x", ((const unsigned char *)bytes)[k]);
    line[at++] = '\n';
    real_write(log, line, at);
    free(line);
}

static const char *last_name(const char *path)
{
    const char *slash = strrchr(path, '/');
    return slash ? slash + 1 : path;
}

static void note_file(const char *call, int file, const void *bytes, size_t count)
{
    char link[64], path[4096];
    sprintf(link, "/proc/self/fd/%d", file);
    ssize_t size = readlink(link, path, sizeof path - 1);
    path[size < 0 ? 0 : size] = 0;
    note(call, file == 1 ? "output" : last_name(path), bytes, count);
}

ssize_t write(int file, const void *bytes, size_t count)
{
    note_file("write", file, bytes, count);
    return real_write(file, bytes, count);
}

static void wait_behind_a_sync(void)
{
    const char *pause = getenv("PAUSE");
    if (pause)
        usleep((useconds_t)atoi(pause));
}

ssize_t __write(int file, const void *bytes, size_t count)
{
    return write(file, bytes, count);
}

int fsync(int file)
{
    int (*real)(int) = (int (*)(int))dlsym(RTLD_NEXT, "fsync");
    int done = real(file);
    wait_behind_a_sync();
    note_file("sync", file, "", 0);
    return done;
}

int fdatasync(int file)
{
    int (*real)(int) = (int (*)(int))dlsym(RTLD_NEXT, "fdatasync");
    int done = real(file);
    wait_behind_a_sync();
    note_file("sync", file, "", 0);
    return done;
}

int rename(const char *from, const char *to)
{
    int (*real)(const char *, const char *) = (int (*)(const char *, const char *))dlsym(RTLD_NEXT, "rename");
    int done = real(from, to);
    note("rename", last_name(to), "", 0);
    return done;
}

int unlink(const char *path)
{
    int (*real)(const char *) = (int (*)(const char *))dlsym(RTLD_NEXT, "unlink");
    int done = real(path);
    note("unlink", last_name(path), "", 0);
    return done;
}

/* A file that may be made: with "t" where what it held goes. */
static int opened(const char *path, int flags, int file)
{
    if (file >= 0 && flags & O_CREAT)
        note("open", last_name(path), "t", flags & O_TRUNC ? 1 : 0);
    return file;
}

int open(const char *path, int flags, ...)
{
    va_list more;
    va_start(more, flags);
    mode_t mode = flags & O_CREAT ? va_arg(more, mode_t) : 0;
    va_end(more);
    return opened(path, flags, real_open(path, flags, mode));
}

int openat(int folder, const char *path, int flags, ...)
{
    int (*real)(int, const char *, int, ...) = (int (*)(int, const char *, int, ...))dlsym(RTLD_NEXT, "openat");
    va_list more;
    va_start(more, flags);
    mode_t mode = flags & O_CREAT ? va_arg(more, mode_t) : 0;
    va_end(more);
    return opened(path, flags, real(folder, path, flags, mode));
}
