/* For tests/overnight, by LD_PRELOAD: the machine stops at the K-th of the calls open, openat, write, fsync, close and rename. The environment says
   OVERNIGHT_MODE:
     count  no stop; how many calls there were is written to the file OVERNIGHT_COUNT
     stop   the process ends before the K-th call
     half   the K-th call, if a write to a file, writes half of its bytes, and the process ends; if another call, the process ends before it
     lost   as stop, and what was written to a file but not flushed by fsync is lost, while names are not
     fail   the K-th call fails with EIO, and the process goes on
   and OVERNIGHT_K. */
#define _GNU_SOURCE
#include <dlfcn.h>
#include <errno.h>
#include <fcntl.h>
#include <stdarg.h>
#include <stdio.h>
#include <stdlib.h>
#include <string.h>
#include <sys/types.h>
#include <unistd.h>

#define FILES 64
#define ROOM (1 << 21)

static long calls;
static char *waiting[FILES]; /* in the mode lost: what was written to a file since it was opened or flushed */
static size_t waits[FILES];

static void *real(const char *name) { return dlsym(RTLD_NEXT, name); }

static int mode_is(const char *name) {
    const char *mode = getenv("OVERNIGHT_MODE");
    return mode && strcmp(mode, name) == 0;
}

/* Counts a call. 1 where it is the K-th. */
static int reached(void) {
    const char *k = getenv("OVERNIGHT_K");
    calls++;
    return k && calls == atol(k);
}

/* What becomes of the call: -1 where it is to fail, 0 where it is made. */
static int judged(void) {
    if (!reached() || mode_is("count")) return 0;
    if (!mode_is("fail")) _exit(0);
    errno = EIO;
    return -1;
}

__attribute__((destructor)) static void tell_count(void) {
    const char *path = getenv("OVERNIGHT_COUNT");
    FILE *f = mode_is("count") && path ? fopen(path, "w") : NULL;
    long n = calls;
    if (!f) return;
    fprintf(f, "%ld\n", n);
    fclose(f);
}

int open(const char *path, int flags, ...) {
    int (*next)(const char *, int, ...) = real("open");
    va_list rest;
    mode_t mode;
    va_start(rest, flags);
    mode = flags & O_CREAT ? va_arg(rest, mode_t) : 0;
    va_end(rest);
    return judged() ? -1 : next(path, flags, mode);
}

int openat(int folder, const char *path, int flags, ...) {
    int (*next)(int, const char *, int, ...) = real("openat");
    va_list rest;
    mode_t mode;
    va_start(rest, flags);
    mode = flags & O_CREAT ? va_arg(rest, mode_t) : 0;
    va_end(rest);
    return judged() ? -1 : next(folder, path, flags, mode);
}

static ssize_t keep_waiting(int fd, const void *bytes, size_t n) {
    if (!waiting[fd]) waiting[fd] = malloc(ROOM);
    if (!waiting[fd] || ROOM - waits[fd] < n) abort();
    memcpy(waiting[fd] + waits[fd], bytes, n);
    waits[fd] += n;
    return (ssize_t)n;
}

ssize_t write(int fd, const void *bytes, size_t n) {
    ssize_t (*next)(int, const void *, size_t) = real("write");
    if (mode_is("half") && 2 < fd) {
        if (!reached()) return next(fd, bytes, n);
        next(fd, bytes, n / 2);
        _exit(0);
    }
    if (judged()) return -1;
    if (mode_is("lost") && 2 < fd && fd < FILES) return keep_waiting(fd, bytes, n);
    return next(fd, bytes, n);
}

int fsync(int fd) {
    int (*next)(int) = real("fsync");
    ssize_t (*put)(int, const void *, size_t) = real("write");
    if (judged()) return -1;
    if (mode_is("lost") && 2 < fd && fd < FILES) {
        if (put(fd, waiting[fd], waits[fd]) != (ssize_t)waits[fd]) abort();
        waits[fd] = 0;
    }
    return next(fd);
}

int close(int fd) {
    int (*next)(int) = real("close");
    if (judged()) return -1;
    if (2 < fd && fd < FILES) waits[fd] = 0;
    return next(fd);
}

int rename(const char *from, const char *to) {
    int (*next)(const char *, const char *) = real("rename");
    return judged() ? -1 : next(from, to);
}
