/* Refuses one allocation of a program: the one whose number, from 1, is in REFUSED; with ONWARD set all later ones too. With
   COUNTED set it prints at the end how many there were, and the number of the first that asked for a MB or more. Threads are counted
   together. Preloaded into a built program by allocation_failures.py; no part of any program of this repository. */
#define _GNU_SOURCE
#include <dlfcn.h>
#include <errno.h>
#include <stdio.h>
#include <stdlib.h>
#include <sys/syscall.h>
#include <unistd.h>

static long asked;
static long large;

static int is_refused(size_t size) {
    static long refused = -1;
    if (refused < 0) {
        const char *number = getenv("REFUSED");
        refused = number ? atol(number) : 0;
    }
    long now = __atomic_add_fetch(&asked, 1, __ATOMIC_SEQ_CST);
    if (size >= 1 << 20 && !large) large = now;
    return now == refused || (refused && now > refused && getenv("ONWARD"));
}

void *malloc(size_t size) {
    static void *(*real)(size_t);
    if (!real) real = dlsym(RTLD_NEXT, "malloc");
    if (is_refused(size)) { errno = ENOMEM; return NULL; }
    return real(size);
}

void *realloc(void *old, size_t size) {
    static void *(*real)(void *, size_t);
    if (!real) real = dlsym(RTLD_NEXT, "realloc");
    if (is_refused(size)) { errno = ENOMEM; return NULL; }
    return real(old, size);
}

void *aligned_alloc(size_t alignment, size_t size) {
    static void *(*real)(size_t, size_t);
    if (!real) real = dlsym(RTLD_NEXT, "aligned_alloc");
    if (is_refused(size)) { errno = ENOMEM; return NULL; }
    return real(alignment, size);
}

int posix_memalign(void **block, size_t alignment, size_t size) {
    static int (*real)(void **, size_t, size_t);
    if (!real) real = dlsym(RTLD_NEXT, "posix_memalign");
    if (is_refused(size)) return ENOMEM;
    return real(block, alignment, size);
}

__attribute__((destructor)) static void tell(void) {
    if (getenv("COUNTED")) fprintf(stderr, "%ld %ld", asked, large);
}

/* A program that ends so runs no destructor. */
void _exit(int status) {
    tell();
    syscall(SYS_exit_group, status);
    __builtin_unreachable();
}
