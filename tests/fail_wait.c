/* Fails one wait for events of a program, and all later ones of the same poll: the wait whose number, from 1, is in WAIT, at the poll
   that was made as the one whose number, from 1, is in POLL. Preloaded into a built program by network.py; no part of any program of
   this repository. */
#define _GNU_SOURCE
#include <dlfcn.h>
#include <errno.h>
#include <stdlib.h>
#include <sys/epoll.h>

static int made;
static int failing = -1;
static long waits;

static long number(const char *name) {
    const char *text = getenv(name);
    return text ? atol(text) : 0;
}

int epoll_create1(int flags) {
    static int (*real)(int);
    if (!real) real = dlsym(RTLD_NEXT, "epoll_create1");
    int poll = real(flags);
    if (++made == number("POLL")) failing = poll;
    return poll;
}

int epoll_wait(int poll, struct epoll_event *events, int most, int timeout) {
    static int (*real)(int, struct epoll_event *, int, int);
    if (!real) real = dlsym(RTLD_NEXT, "epoll_wait");
    if (poll == failing && __atomic_add_fetch(&waits, 1, __ATOMIC_SEQ_CST) >= number("WAIT")) {
        errno = EBADF;
        return -1;
    }
    return real(poll, events, most, timeout);
}
