// Counts how often the threads named `caller` of the program that it is preloaded into give way to others. When the
// program exits, it writes the number into the file that YIELDS names.
#define _GNU_SOURCE
#include <dlfcn.h>
#include <pthread.h>
#include <sched.h>
#include <stdatomic.h>
#include <stdio.h>
#include <stdlib.h>
#include <string.h>
#include <unistd.h>

static atomic_long yields;

int sched_yield(void) {
    static int (*real)(void);
    char name[16];
    if (!real) real = (int (*)(void))dlsym(RTLD_NEXT, "sched_yield");
    if (pthread_getname_np(pthread_self(), name, sizeof name) == 0 && strcmp(name, "caller") == 0)
        atomic_fetch_add(&yields, 1);
    return real();
}

__attribute__((destructor)) static void tell(void) {
    const char *path = getenv("YIELDS");
    FILE *file = path ? fopen(path, "w") : NULL;
    if (!file || fprintf(file, "%ld\n", atomic_load(&yields)) < 0 || fclose(file)) _exit(99);
}
