/* Loaded into a program by LD_PRELOAD: the system does not say which sockets are ready. */
#include <errno.h>
#include <sys/epoll.h>

int epoll_wait(int set, struct epoll_event *events, int most, int millis) {
    (void)set, (void)events, (void)most, (void)millis;
    errno = EBADF;
    return -1;
}
