/* Loaded into a program by LD_PRELOAD: refuses requests for memory, one in a run, and counts them. At the end the
   count goes to the descriptor REFUSED_COUNT. The C library's own functions serve all other requests.

   REFUSED=K refuses the K-th request, and 0 none. Requests of fewer than REFUSED_LEAST bytes are neither counted nor
   refused.

   REFUSED_EVERY=N refuses the first of each N requests, each in a copy of the process, which begins at that request
   and so repeats nothing before it. The copy works in the folder REFUSED_COPIES/K, a copy of the process's folder
   REFUSED_FOLDER, which also has its output. Up to REFUSED_JOBS copies run side by side. When one ends, the line
   `K STATUS` goes to the descriptor REFUSED_DONE, with a negative STATUS for a signal. The line is `K open` if a socket
   was open at the request, which a copy would share: there is no such copy. */
#include "copying.h"
#include <errno.h>
#include <stddef.h>
#include <stdlib.h>
#include <sys/wait.h>

extern void *__libc_malloc(size_t);
extern void *__libc_calloc(size_t, size_t);
extern void *__libc_realloc(void *, size_t);
extern void *__libc_memalign(size_t, size_t);

/* The most copies side by side. */
enum { MOST_JOBS = 64 };

struct copy {
    pid_t process;
    unsigned long request;
};

static unsigned long asked, least, refused, every, jobs, running;
static struct copy copies[MOST_JOBS];
/* Whether requests are this library's own, and whether this process is a copy. */
static int is_busy, is_copy;

static unsigned long number_of(const char *name) {
    const char *word = getenv(name);
    return word ? strtoul(word, NULL, 10) : 0;
}

/* Earlier requests are the loader's, and are not counted. */
__attribute__((constructor)) static void begin(void) {
    least = number_of("REFUSED_LEAST");
    refused = number_of("REFUSED");
    every = number_of("REFUSED_EVERY");
    jobs = number_of("REFUSED_JOBS");
    jobs = jobs < 1 ? 1 : jobs > MOST_JOBS ? MOST_JOBS : jobs;
    asked = 0;
}

/* Waits until a copy ends, and reports it. */
static void wait_for_copy(void) {
    int status;
    pid_t ended = waitpid(-1, &status, 0);
    for (unsigned long at = 0; at < running; at++)
        if (copies[at].process == ended) {
            int code = WIFEXITED(status) ? WEXITSTATUS(status) : -WTERMSIG(status);
            dprintf((int)number_of("REFUSED_DONE"), "%lu %d\n", copies[at].request, code);
            copies[at] = copies[--running];
            return;
        }
    running = ended < 0 ? 0 : running;
}

__attribute__((destructor)) static void end(void) {
    is_busy = 1;
    if (is_copy)
        return;
    while (running > 0)
        wait_for_copy();
    dprintf((int)number_of("REFUSED_COUNT"), "%lu\n", asked);
}

static int has_socket(void) {
    for (int descriptor = 0; descriptor < MOST_OPEN; descriptor++)
        if (!strncmp(opened(descriptor), "socket:", 7))
            return 1;
    return 0;
}

/* Makes a copy of this process that is refused its request. Returns whether this process is the copy. */
static int is_copied(unsigned long request) {
    if (has_socket()) {
        dprintf((int)number_of("REFUSED_DONE"), "%lu open\n", request);
        return 0;
    }
    while (running >= jobs)
        wait_for_copy();
    int made[2];
    if (pipe(made))
        abort();
    pid_t process = fork();
    if (process < 0)
        abort();
    if (process == 0) {
        is_copy = 1;
        move_to_copy(getenv("REFUSED_FOLDER"), getenv("REFUSED_COPIES"), request);
        must(write(made[1], "", 1) == 1);
        close(made[0]);
        close(made[1]);
        alarm(SECONDS);
        return 1;
    }
    /* The copy has its files, or has ended without, once the pipe has a byte or its end. */
    char byte;
    close(made[1]);
    while (read(made[0], &byte, 1) < 0 && errno == EINTR)
        ;
    close(made[0]);
    copies[running++] = (struct copy){process, request};
    return 0;
}

static int is_refused(size_t size) {
    if (is_busy || size < least)
        return 0;
    asked++;
    int refuses = asked == refused;
    if (every && !is_copy && (asked - 1) % every == 0) {
        is_busy = 1;
        refuses = is_copied(asked);
        is_busy = 0;
    }
    if (refuses)
        errno = ENOMEM;
    return refuses;
}

void *malloc(size_t size) {
    return is_refused(size) ? NULL : __libc_malloc(size);
}

void *calloc(size_t count, size_t size) {
    return is_refused(count * size) ? NULL : __libc_calloc(count, size);
}

void *realloc(void *old, size_t size) {
    return is_refused(size) ? NULL : __libc_realloc(old, size);
}

void *memalign(size_t alignment, size_t size) {
    return is_refused(size) ? NULL : __libc_memalign(alignment, size);
}

void *aligned_alloc(size_t alignment, size_t size) {
    return memalign(alignment, size);
}

int posix_memalign(void **place, size_t alignment, size_t size) {
    void *given = memalign(alignment, size);
    if (!given)
        return ENOMEM;
    *place = given;
    return 0;
}
