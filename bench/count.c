/* Counts what a program asks of the C library: allocations and their bytes, copies (memcpy and memmove) and theirs, and prints the
   four numbers at the end. Preloaded into a built program by cost.py; no part of any program of this repository. */
#define _GNU_SOURCE
#include <dlfcn.h>
#include <stdio.h>
#include <stdlib.h>
#include <string.h>
#include <sys/syscall.h>
#include <unistd.h>

static long allocations, allocated, copies, copied;

static void allocate(size_t size) {
    allocations++;
    allocated += size;
}

void *malloc(size_t size) {
    static void *(*real)(size_t);
    if (!real) real = dlsym(RTLD_NEXT, "malloc");
    allocate(size);
    return real(size);
}

void *realloc(void *old, size_t size) {
    static void *(*real)(void *, size_t);
    if (!real) real = dlsym(RTLD_NEXT, "realloc");
    allocate(size);
    return real(old, size);
}

void *aligned_alloc(size_t alignment, size_t size) {
    static void *(*real)(size_t, size_t);
    if (!real) real = dlsym(RTLD_NEXT, "aligned_alloc");
    allocate(size);
    return real(alignment, size);
}

int posix_memalign(void **block, size_t alignment, size_t size) {
    static int (*real)(void **, size_t, size_t);
    if (!real) real = dlsym(RTLD_NEXT, "posix_memalign");
    allocate(size);
    return real(block, alignment, size);
}

/* Byte by byte and volatile, so that the compiler makes no call of memmove out of it. */
void *memmove(void *to, const void *from, size_t bytes) {
    volatile char *at = to;
    const char *source = from;
    copies++;
    copied += bytes;
    if ((char *)to < source)
        for (size_t i = 0; i < bytes; i++) at[i] = source[i];
    else
        for (size_t i = bytes; i--;) at[i] = source[i];
    return to;
}

void *memcpy(void *to, const void *from, size_t bytes) { return memmove(to, from, bytes); }

__attribute__((destructor)) static void tell(void) {
    fprintf(stderr, "%ld %ld %ld %ld", allocations, allocated, copies, copied);
}

/* A program with threads ends by this, which runs no destructor. */
void _exit(int status) {
    tell();
    syscall(SYS_exit_group, status);
    __builtin_unreachable();
}
