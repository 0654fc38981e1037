/* For LD_PRELOAD: lets one call of a program that touches a file go wrong. bin/faults uses it.
 *
 * Counted are open, read, write, fsync, fdatasync and rename, in the order in which they are made.
 *   FAULT_AT     the number of the call that goes wrong, from 1; not set: none does
 *   FAULT_KIND   before, after: the process is killed before the call or after it;
 *                half: a write takes half of its bytes, and the process is killed;
 *                short: a read or write takes half of its bytes;
 *                or a number: the call fails with that errno
 *   FAULT_TRACE  a file that gets a line for each call: name, path or descriptor, and what was
 *                written or the new name
 */
#define _GNU_SOURCE
#include <errno.h>
#include <fcntl.h>
#include <signal.h>
#include <stdarg.h>
#include <stdio.h>
#include <stdlib.h>
#include <string.h>
#include <sys/syscall.h>
#include <unistd.h>

enum { NONE, BEFORE, AFTER, HALF, SHORT, FAIL };

static long calls;
static int error;

/* What happens at this call. */
static int fault(void) {
    static const char *const kinds[] = {"before", "after", "half", "short"};
    const char *at = getenv("FAULT_AT");
    const char *kind = getenv("FAULT_KIND");
    calls++;
    if (at == NULL || kind == NULL || atol(at) != calls) {
        return NONE;
    }
    for (int i = 0; i < 4; i++) {
        if (strcmp(kind, kinds[i]) == 0) {
            return BEFORE + i;
        }
    }
    error = atoi(kind);
    return FAIL;
}

static void killed(void) {
    syscall(SYS_kill, (long)getpid(), (long)SIGKILL);
}

static int failed(void) {
    errno = error;
    return -1;
}

/* A line of the trace: the bytes are written as hex digits. */
static void trace(const char *name, const char *subject, const char *bytes, size_t size) {
    const char *path = getenv("FAULT_TRACE");
    if (path == NULL) {
        return;
    }
    char *line = malloc(strlen(name) + strlen(subject) + 2 * size + 4);
    int at = sprintf(line, "%s %s ", name, subject);
    for (size_t i = 0; i < size; i++) {
        at += sprintf(line + at, "%02x", (unsigned char)bytes[i]);
    }
    line[at++] = '\n';
    int fd = (int)syscall(SYS_open, path, O_WRONLY | O_CREAT | O_APPEND, 0666);
    syscall(SYS_write, fd, line, (size_t)at);
    syscall(SYS_close, fd);
    free(line);
}

static void trace_fd(const char *name, int fd, const char *bytes, size_t size) {
    char link[64];
    char path[4096] = "?";
    snprintf(link, sizeof link, "/proc/self/fd/%d", fd);
    ssize_t length = readlink(link, path, sizeof path - 1);
    path[length < 0 ? 1 : length] = 0;
    if (fd < 3) {
        snprintf(path, sizeof path, "%d", fd);
    }
    trace(name, path, bytes, size);
}

/* The call itself, between what may happen before it and after it. */
#define MADE(type, call)          \
    do {                          \
        int what = fault();       \
        if (what == BEFORE) {     \
            killed();             \
        }                         \
        if (what == FAIL) {       \
            return failed();      \
        }                         \
        type result = (type)call; \
        if (what == AFTER) {      \
            killed();             \
        }                         \
        return result;            \
    } while (0)

static int opened(const char *path, int flags, mode_t mode) {
    trace("open", path, flags & O_TRUNC ? "t" : "", flags & O_TRUNC ? 1 : 0);
    MADE(int, syscall(SYS_open, path, flags, mode));
}

static mode_t mode_of(int flags, va_list rest) {
    return flags & (O_CREAT | O_TMPFILE) ? va_arg(rest, mode_t) : 0;
}

int open(const char *path, int flags, ...) {
    va_list rest;
    va_start(rest, flags);
    mode_t mode = mode_of(flags, rest);
    va_end(rest);
    return opened(path, flags, mode);
}

int open64(const char *path, int flags, ...) {
    va_list rest;
    va_start(rest, flags);
    mode_t mode = mode_of(flags, rest);
    va_end(rest);
    return opened(path, flags, mode);
}

static size_t half(int what, size_t size) {
    return (what == HALF || what == SHORT) && size > 1 ? size / 2 : size;
}

ssize_t read(int fd, void *bytes, size_t size) {
    trace_fd("read", fd, "", 0);
    int what = fault();
    if (what == BEFORE) {
        killed();
    }
    if (what == FAIL) {
        return failed();
    }
    ssize_t got = syscall(SYS_read, fd, bytes, half(what, size));
    if (what == AFTER || what == HALF) {
        killed();
    }
    return got;
}

ssize_t write(int fd, const void *bytes, size_t size) {
    trace_fd("write", fd, bytes, size);
    int what = fault();
    if (what == BEFORE) {
        killed();
    }
    if (what == FAIL) {
        return failed();
    }
    ssize_t put = syscall(SYS_write, fd, bytes, half(what, size));
    if (what == AFTER || what == HALF) {
        killed();
    }
    return put;
}

int fsync(int fd) {
    trace_fd("fsync", fd, "", 0);
    MADE(int, syscall(SYS_fsync, fd));
}

int fdatasync(int fd) {
    trace_fd("fsync", fd, "", 0);
    MADE(int, syscall(SYS_fdatasync, fd));
}

int rename(const char *from, const char *to) {
    trace("rename", from, to, strlen(to));
    MADE(int, syscall(SYS_rename, from, to));
}
