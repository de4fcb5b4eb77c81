/* Loaded into a program by LD_PRELOAD: stops one of its files at each of the calls that read, write, cut, measure and sync
   it, each time in a copy of the process. The program itself meets no stop.

   STOP_FILE is the end of the file's path. At the call K on it, from 0, the process is copied. The copy works in the
   folder STOP_COPIES/K, a copy of the process's folder STOP_FOLDER, which also has its output. STOP_HOW says what the
   copy does: with `fail` this call and each later one on the file fails and changes nothing; with `half` the copy ends
   at this call, and a write first writes half of its bytes. The process waits for each copy.
   A successful sync of any file copies it to PATH.synced: after a loss of power at least that is left. */
#define _GNU_SOURCE
#include "copying.h"
#include <dlfcn.h>
#include <errno.h>
#include <stdlib.h>
#include <sys/wait.h>

/* The function of the C library that the one here replaces. */
#define NEXT(name) ((__typeof__(&name))dlsym(RTLD_NEXT, #name))

/* The status of a copy that ends at its stop. */
enum { STOPPED = 9 };

static const char *file, *folder, *how, *copies;
static unsigned long calls;
static int is_copy;

__attribute__((constructor)) static void begin(void) {
    copies = getenv("STOP_COPIES");
    file = getenv("STOP_FILE");
    folder = getenv("STOP_FOLDER");
    how = getenv("STOP_HOW");
    if (!copies || !file || !folder || !how)
        abort();
}

/* Makes a copy of this process whose file is stopped. Returns whether this process is the copy. */
static int is_copied(unsigned long call) {
    int status;
    pid_t process = fork();
    if (process == 0) {
        is_copy = 1;
        move_to_copy(folder, copies, call);
        alarm(SECONDS);
        return 1;
    }
    if (process < 0 || waitpid(process, &status, 0) != process || !WIFEXITED(status) || WEXITSTATUS(status) == UNCOPIED)
        abort();
    return 0;
}

static int is_stopped(int fd) {
    const char *path = opened(fd);
    size_t len = strlen(path), end = strlen(file);
    if (len < end || strcmp(path + len - end, file) != 0)
        return 0;
    return is_copy || is_copied(calls++);
}

/* Ends the process, or returns the result of a failed call. */
static int stopped(void) {
    if (strcmp(how, "fail") != 0)
        _exit(STOPPED);
    errno = EIO;
    return -1;
}

static void keep_synced(int fd) {
    char path[PATH_MAX + 8], block[65536];
    int copy = open(strcat(strcpy(path, opened(fd)), ".synced"), O_CREAT | O_TRUNC | O_WRONLY, 0666);
    off_t at = 0;
    for (ssize_t got; (got = NEXT(pread)(fd, block, sizeof block, at)) > 0; at += got)
        if (write(copy, block, (size_t)got) != got)
            abort();
    close(copy);
}

static int sync_by(int (*sync)(int), int fd) {
    struct stat found;
    if (is_stopped(fd))
        return stopped();
    int status = sync(fd);
    if (status == 0 && fstat(fd, &found) == 0 && S_ISREG(found.st_mode))
        keep_synced(fd);
    return status;
}

int fsync(int fd) {
    return sync_by(NEXT(fsync), fd);
}

int fdatasync(int fd) {
    return sync_by(NEXT(fdatasync), fd);
}

ssize_t pread(int fd, void *bytes, size_t len, off_t at) {
    return is_stopped(fd) ? stopped() : NEXT(pread)(fd, bytes, len, at);
}

ssize_t pwrite(int fd, const void *bytes, size_t len, off_t at) {
    if (!is_stopped(fd))
        return NEXT(pwrite)(fd, bytes, len, at);
    if (strcmp(how, "half") == 0 && NEXT(pwrite)(fd, bytes, len / 2, at) < 0)
        abort();
    return stopped();
}

int ftruncate(int fd, off_t len) {
    return is_stopped(fd) ? stopped() : NEXT(ftruncate)(fd, len);
}

/* The size of an open file is read by its descriptor and an empty path. */
int statx(int fd, const char *restrict path, int flags, unsigned mask, struct statx *restrict found) {
    return *path == 0 && is_stopped(fd) ? stopped() : NEXT(statx)(fd, path, flags, mask, found);
}
