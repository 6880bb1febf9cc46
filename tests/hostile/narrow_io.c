// Narrows the standard input and output of the program that it is preloaded into: each read gives
// one byte at most, and each write takes one. The read whose number, counted from 1, is in FAIL_READ
// fails; so does the write in FAIL_WRITE, and that in FULL_WRITE takes no byte. Writes to files of the
// program's own are narrowed, too, and the one in FAIL_FILE fails.
#define _GNU_SOURCE
#include <dlfcn.h>
#include <errno.h>
#include <stdlib.h>
#include <unistd.h>

static long named(const char *name) {
    const char *number = getenv(name);
    return number ? atol(number) : 0;
}

ssize_t read(int file, void *into, size_t size) {
    static ssize_t (*real)(int, void *, size_t);
    static long reads;
    if (!real)
        real = (ssize_t (*)(int, void *, size_t))dlsym(RTLD_NEXT, "read");
    if (file != STDIN_FILENO)
        return real(file, into, size);
    if (++reads == named("FAIL_READ")) {
        errno = EIO;
        return -1;
    }
    return real(file, into, size ? 1 : 0);
}

ssize_t write(int file, const void *from, size_t size) {
    static ssize_t (*real)(int, const void *, size_t);
    static long writes, to_files;
    if (!real)
        real = (ssize_t (*)(int, const void *, size_t))dlsym(RTLD_NEXT, "write");
    if (file > STDERR_FILENO && ++to_files == named("FAIL_FILE")) {
        errno = EIO;
        return -1;
    }
    if (file != STDOUT_FILENO)
        return real(file, from, size && file > STDERR_FILENO ? 1 : size);
    if (++writes == named("FAIL_WRITE")) {
        errno = EIO;
        return -1;
    }
    if (writes == named("FULL_WRITE"))
        return 0;
    return real(file, from, size ? 1 : 0);
}
