/* Loaded into a program by LD_PRELOAD: writes a line to the file CALLS for each call that connects a socket, or that
 * reads, writes, cuts, removes or syncs a regular file:
 *     name begin end bytes
 * The times are seconds of the clock of Python's time.monotonic(). */
#define _GNU_SOURCE
#include <dlfcn.h>
#include <fcntl.h>
#include <stdio.h>
#include <stdlib.h>
#include <sys/socket.h>
#include <sys/stat.h>
#include <time.h>
#include <unistd.h>

/* The function of the C library that the one here replaces. */
#define NEXT(name) ((__typeof__(&name))dlsym(RTLD_NEXT, #name))

static int out = -1;

__attribute__((constructor)) static void begin(void) {
    const char *path = getenv("CALLS");
    if (path)
        out = open(path, O_CREAT | O_APPEND | O_WRONLY | O_CLOEXEC, 0666);
}

static double now(void) {
    struct timespec t;
    clock_gettime(CLOCK_MONOTONIC, &t);
    return (double)t.tv_sec + (double)t.tv_nsec / 1e9;
}

static int is_file(int fd) {
    struct stat found;
    return fd > 2 && fstat(fd, &found) == 0 && S_ISREG(found.st_mode);
}

static void record(const char *name, double began, long long bytes) {
    if (out >= 0)
        dprintf(out, "%s %.6f %.6f %lld\n", name, began, now(), bytes);
}

/* A call on a descriptor, which is recorded if that is of a regular file. */
#define ON_FILE(type, name, parameters, arguments)          \
    type name parameters {                                  \
        double began = now();                               \
        type result = NEXT(name) arguments;                 \
        if (is_file(fd))                                    \
            record(#name, began, (long long)result);        \
        return result;                                      \
    }

ON_FILE(ssize_t, read, (int fd, void *to, size_t size), (fd, to, size))
ON_FILE(ssize_t, write, (int fd, const void *from, size_t size), (fd, from, size))
ON_FILE(ssize_t, pread, (int fd, void *to, size_t size, off_t at), (fd, to, size, at))
ON_FILE(ssize_t, pread64, (int fd, void *to, size_t size, off64_t at), (fd, to, size, at))
ON_FILE(ssize_t, pwrite, (int fd, const void *from, size_t size, off_t at), (fd, from, size, at))
ON_FILE(ssize_t, pwrite64, (int fd, const void *from, size_t size, off64_t at), (fd, from, size, at))
ON_FILE(int, ftruncate, (int fd, off_t size), (fd, size))
ON_FILE(int, ftruncate64, (int fd, off64_t size), (fd, size))
ON_FILE(int, fsync, (int fd), (fd))
ON_FILE(int, fdatasync, (int fd), (fd))

int unlink(const char *path) {
    double began = now();
    int result = NEXT(unlink)(path);
    record("unlink", began, 0);
    return result;
}

int connect(int fd, const struct sockaddr *to, socklen_t size) {
    double began = now();
    int result = NEXT(connect)(fd, to, size);
    record("connect", began, 0);
    return result;
}
