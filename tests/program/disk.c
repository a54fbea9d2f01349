// A disk and a standard error, for tests: they are loaded before the C library. These settings, each from the environment, say what they do:
//   SLOW         how many microseconds each read takes; no other time passes on the clock, so that without it each read is fast
//   QUICK        how many bytes a read may ask for that takes no such time
//   BAD, NAME    4096 bytes from this offset on of the file whose name ends so cannot be read: a read that begins there fails, and one that
//                comes to them ends there
//   ERROR        the number of the error of such a read, if not EIO
//   AT, NAME     a read of that file that begins there fails, and no other read that comes to these bytes
//   GOOD         how many of those that begin there do not fail before one does
//   END, NAME    that file ends at this offset for each read, whatever its length is
//   SHORT        how many bytes a read gives at most
//   LONGEST      a read that asks for more bytes fails
//   INTERRUPTED  every second read is interrupted
//   HIDDEN       what is at a path that ends so cannot be looked at
//   HIDDEN_LINK  nor whether that path is a link
//   HIDDEN_ERROR the number of the error of that, if not EIO
//   OTHER, NAME  the file that is opened where that one is named
//   UNTAKEN      how many writes to standard error fail before it takes one
//   OUT_ERROR    each write to standard output fails with the error of this number
//   OUT_LATER    the number of the error of each such write but the first, if not that
//   OUT_MOST     how many bytes such a write takes at most
//   OPENED       a file that gets a line for each file that is opened: how, and its path
//   READS        a file that gets a line for each read: how many bytes it asks for, and where it begins
#define _GNU_SOURCE
#include <dlfcn.h>
#include <errno.h>
#include <fcntl.h>
#include <limits.h>
#include <stdarg.h>
#include <stdio.h>
#include <stdlib.h>
#include <string.h>
#include <sys/stat.h>
#include <time.h>
#include <unistd.h>

// The time of the clock in microseconds.
static long passed;

static long number(const char *name, long otherwise) {
    const char *text = getenv(name);
    return text ? atol(text) : otherwise;
}

// Whether a path ends with what a variable has.
static int ends_with(const char *path, const char *variable) {
    const char *name = getenv(variable);
    size_t len = strlen(path), end = name ? strlen(name) : 0;
    return name && len >= end && memcmp(path + len - end, name, end) == 0;
}

static int is_named(int file) {
    char link[64], path[4096];
    snprintf(link, sizeof link, "/proc/self/fd/%d", file);
    ssize_t len = readlink(link, path, sizeof path - 1);
    path[len < 0 ? 0 : len] = 0;
    return ends_with(path, "NAME");
}

// Adds a line to the file whose path a variable has.
static void tell(const char *variable, const char *line, ...) {
    const char *path = getenv(variable);
    FILE *file = path ? fopen(path, "a") : NULL;
    if (!file) return;
    va_list rest;
    va_start(rest, line);
    vfprintf(file, line, rest);
    va_end(rest);
    fclose(file);
}

ssize_t pread(int file, void *bytes, size_t count, off_t from) {
    static ssize_t (*real)(int, void *, size_t, off_t);
    static int reads;
    static long begun;
    if (!real) real = (ssize_t (*)(int, void *, size_t, off_t))dlsym(RTLD_NEXT, "pread");
    off_t bad = number("BAD", -1);
    size_t most = number("SHORT", count);
    tell("READS", "%zu %ld\n", count, (long)from);
    long slow = count > (size_t)number("QUICK", 0) ? number("SLOW", 0) : 0;
    passed += slow;
    if (slow) usleep(slow);
    if (getenv("INTERRUPTED") && ++reads % 2) {
        errno = EINTR;
        return -1;
    }
    if (count > (size_t)number("LONGEST", LONG_MAX)) {
        errno = EIO;
        return -1;
    }
    if (bad >= 0 && from < bad + 4096 && from + (off_t)count > bad && is_named(file)) {
        if (from >= bad) {
            errno = number("ERROR", EIO);
            return -1;
        }
        count = bad - from;
    }
    long end = number("END", LONG_MAX);
    if (from + (off_t)count > end && is_named(file)) count = from < end ? end - from : 0;
    if (from == number("AT", -1) && is_named(file) && ++begun > number("GOOD", 0)) {
        errno = EIO;
        return -1;
    }
    return real(file, bytes, count < most ? count : most, from);
}

int clock_gettime(clockid_t clock, struct timespec *now) {
    (void)clock;
    now->tv_sec = passed / 1000000;
    now->tv_nsec = passed % 1000000 * 1000;
    return 0;
}

int statx(int folder, const char *path, int flags, unsigned mask, struct statx *known) {
    static int (*real)(int, const char *, int, unsigned, struct statx *);
    if (!real) real = (int (*)(int, const char *, int, unsigned, struct statx *))dlsym(RTLD_NEXT, "statx");
    if (ends_with(path, flags & AT_SYMLINK_NOFOLLOW ? "HIDDEN_LINK" : "HIDDEN")) {
        errno = number("HIDDEN_ERROR", EIO);
        return -1;
    }
    return real(folder, path, flags, mask, known);
}

int open(const char *path, int flags, ...) {
    static int (*real)(const char *, int, ...);
    if (!real) real = (int (*)(const char *, int, ...))dlsym(RTLD_NEXT, "open");
    va_list rest;
    va_start(rest, flags);
    int mode = flags & O_CREAT ? va_arg(rest, int) : 0;
    va_end(rest);
    tell("OPENED", "%s %s\n", (flags & (O_ACCMODE | O_CREAT | O_TRUNC)) == O_RDONLY ? "reading" : "writing", path);
    const char *other = ends_with(path, "NAME") ? getenv("OTHER") : NULL;
    return real(other ? other : path, flags, mode);
}

ssize_t write(int file, const void *bytes, size_t count) {
    static ssize_t (*real)(int, const void *, size_t);
    static long writes, failures;
    if (!real) real = (ssize_t (*)(int, const void *, size_t))dlsym(RTLD_NEXT, "write");
    if (file == STDERR_FILENO && ++writes <= number("UNTAKEN", 0)) {
        errno = EAGAIN;
        return -1;
    }
    if (file == STDOUT_FILENO && getenv("OUT_ERROR")) {
        errno = number(failures++ ? "OUT_LATER" : "OUT_ERROR", number("OUT_ERROR", 0));
        return -1;
    }
    size_t most = file == STDOUT_FILENO ? number("OUT_MOST", LONG_MAX) : LONG_MAX;
    return real(file, bytes, count < most ? count : most);
}
