/* timed OUT COMMAND ..: runs a command, and writes a line to OUT:
 *     seconds user system peak-KiB written-bytes status
 * This is a small program, because the peak of a child is at least that of the process that forked it. */
#define _GNU_SOURCE
#include <stdio.h>
#include <stdlib.h>
#include <sys/resource.h>
#include <sys/wait.h>
#include <time.h>
#include <unistd.h>

static double seconds(struct timespec t) {
    return (double)t.tv_sec + (double)t.tv_nsec / 1e9;
}

int main(int argc, char **argv) {
    if (argc < 3)
        return 2;
    struct timespec before, after;
    struct rusage use;
    int status = 0;
    clock_gettime(CLOCK_MONOTONIC, &before);
    pid_t child = fork();
    if (child == 0) {
        execvp(argv[2], argv + 2);
        _exit(127);
    }
    if (child < 0 || wait4(child, &status, 0, &use) < 0)
        return 2;
    clock_gettime(CLOCK_MONOTONIC, &after);
    int exited = WIFEXITED(status) ? WEXITSTATUS(status) : 128 + WTERMSIG(status);
    FILE *out = fopen(argv[1], "w");
    if (!out)
        return 2;
    fprintf(out, "%.9f %ld.%06ld %ld.%06ld %ld %lld %d\n", seconds(after) - seconds(before),
            (long)use.ru_utime.tv_sec, (long)use.ru_utime.tv_usec, (long)use.ru_stime.tv_sec, (long)use.ru_stime.tv_usec,
            use.ru_maxrss, (long long)use.ru_oublock * 512, exited);
    fclose(out);
    return exited;
}
