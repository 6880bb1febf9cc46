// Refuses one allocation of the program that it is preloaded into: the one whose number, counted
// from 1, is in REFUSE. Where there were that many, it makes the file that REFUSED names. When the
// program exits, it writes how many blocks are left, which were given and not freed, into the file
// that LEFT names. It is for programs of one thread.
#define _GNU_SOURCE
#include <dlfcn.h>
#include <errno.h>
#include <fcntl.h>
#include <stdio.h>
#include <stdlib.h>
#include <unistd.h>

static long left;

static int is_refused(void) {
    static long made, refuse = -1;
    if (refuse < 0) {
        const char *number = getenv("REFUSE");
        refuse = number ? atol(number) : 0;
    }
    if (++made != refuse)
        return 0;
    const char *path = getenv("REFUSED");
    if (path)
        close(open(path, O_CREAT | O_WRONLY, 0600));
    return 1;
}

static void *given(void *block) {
    left += block != NULL;
    return block;
}

void *malloc(size_t size) {
    static void *(*real)(size_t);
    if (!real)
        real = (void *(*)(size_t))dlsym(RTLD_NEXT, "malloc");
    return is_refused() ? NULL : given(real(size));
}

void *calloc(size_t count, size_t size) {
    static void *(*real)(size_t, size_t);
    if (!real)
        real = (void *(*)(size_t, size_t))dlsym(RTLD_NEXT, "calloc");
    return is_refused() ? NULL : given(real(count, size));
}

void *aligned_alloc(size_t alignment, size_t size) {
    static void *(*real)(size_t, size_t);
    if (!real)
        real = (void *(*)(size_t, size_t))dlsym(RTLD_NEXT, "aligned_alloc");
    return is_refused() ? NULL : given(real(alignment, size));
}

int posix_memalign(void **place, size_t alignment, size_t size) {
    static int (*real)(void **, size_t, size_t);
    if (!real)
        real = (int (*)(void **, size_t, size_t))dlsym(RTLD_NEXT, "posix_memalign");
    int fault = is_refused() ? ENOMEM : real(place, alignment, size);
    left += fault == 0;
    return fault;
}

// A block that is grown counts once; one that couldn't be grown is still there.
void *realloc(void *block, size_t size) {
    static void *(*real)(void *, size_t);
    if (!real)
        real = (void *(*)(void *, size_t))dlsym(RTLD_NEXT, "realloc");
    if (is_refused())
        return NULL;
    return block ? real(block, size) : given(real(NULL, size));
}

void free(void *block) {
    static void (*real)(void *);
    if (!real)
        real = (void (*)(void *))dlsym(RTLD_NEXT, "free");
    left -= block != NULL;
    real(block);
}

__attribute__((destructor)) static void tell(void) {
    const char *path = getenv("LEFT");
    if (!path)
        return;
    int file = open(path, O_CREAT | O_TRUNC | O_WRONLY, 0600);
    // not by `write`, which another shim may narrow
    if (dprintf(file, "%ld\n", left) < 0)
        _exit(99);
    close(file);
}
