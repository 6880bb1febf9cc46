/* Four threads read a sum, optimistically where they can, and add to it in write mode. Prints it: 40000. */
#include "lock.h"
#include <inttypes.h>
#include <pthread.h>
#include <stdio.h>
#include <stdlib.h>

enum { THREADS = 4, EACH = 10000 };

static struct lock lock = {{1, STAMPED_READERS_1, STAMPED_VERSIONS_1}, 0};
static _Atomic uint64_t sum; /* in an atomic, since optimistic reads are beside writers */

static uint64_t acquire(uint32_t call) {
    uint64_t stamp = call_lock(&lock, call, 0);
    if (stamp == 0) abort();
    return stamp;
}

static void release(uint64_t stamp) {
    if (call_lock(&lock, STAMPED_UNLOCK, stamp) != STAMPED_DONE) abort();
}

/* Reads without acquiring anything, and in read mode if a writer came in between. */
static uint64_t sum_now(void) {
    uint64_t stamp = call_lock(&lock, STAMPED_OPTIMISTIC, 0);
    uint64_t read = atomic_load(&sum);
    if (call_lock(&lock, STAMPED_VALIDATE, stamp) == STAMPED_YES) return read;
    stamp = acquire(STAMPED_READ_LOCK);
    read = atomic_load(&sum);
    release(stamp);
    return read;
}

static void *count(void *unused) {
    (void)unused;
    for (int i = 0; i < EACH; i++) {
        uint64_t before = sum_now();
        uint64_t stamp = acquire(STAMPED_WRITE_LOCK);
        uint64_t now = atomic_load(&sum);
        if (now < before) abort();
        atomic_store(&sum, now + 1);
        release(stamp);
    }
    return NULL;
}

int main(void) {
    pthread_t threads[THREADS];
    atomic_init(&lock.word, stamped_opening(lock.limits.layout));
    for (int i = 0; i < THREADS; i++) {
        if (pthread_create(&threads[i], NULL, count, NULL)) abort();
    }
    for (int i = 0; i < THREADS; i++) pthread_join(threads[i], NULL);
    printf("%" PRIu64 "\n", sum_now());
    return 0;
}
