/* Four threads count under the lock of examples/c. Their calls go to standard output as a stream, and the sum to
   standard error: 4000. An argument is how often each thread adds one, 1000 if there is none. */
#include "lock.h"
#include "observed_lock.h"
#include <inttypes.h>
#include <stdio.h>
#include <string.h>

enum { THREADS = 4 };

static struct lock lock = {{1, STAMPED_READERS_1, STAMPED_VERSIONS_1}, 0};
static struct observed run;
static _Atomic uint64_t sum; /* in an atomic, since optimistic reads are beside writers */
static int each = 1000;

static uint64_t observed_call(enum observed_call call, uint64_t stamp) {
    int lane = observed_begin(&run, call, stamp);
    uint64_t reply = call_lock(&lock, call + 1, stamp);
    observed_return(&run, lane, call, reply);
    return reply;
}

/* Reads without acquiring anything, and in read mode if a writer came in between. */
static uint64_t sum_now(void) {
    uint64_t stamp = observed_call(OBSERVED_OPTIMISTIC, 0), read = atomic_load(&sum);
    if (observed_call(OBSERVED_VALIDATE, stamp)) return read;
    stamp = observed_call(OBSERVED_READ_LOCK, 0);
    read = atomic_load(&sum);
    if (!observed_call(OBSERVED_UNLOCK_READ, stamp)) abort();
    return read;
}

static void *count(void *unused) {
    (void)unused;
    for (int i = 0; i < each; i++) {
        uint64_t before = sum_now(), stamp = observed_call(OBSERVED_WRITE_LOCK, 0), now = atomic_load(&sum);
        if (stamp == 0 || now < before) abort();
        atomic_store(&sum, now + 1);
        if (!observed_call(OBSERVED_UNLOCK, stamp)) abort();
    }
    return NULL;
}

int main(int words, char **word) {
    pthread_t threads[THREADS];
    if (words > 1) each = atoi(word[1]);
    atomic_init(&lock.word, stamped_opening(lock.limits.layout));
    int error = observed_start(&run, 1, 1, STAMPED_READERS_1, STAMPED_VERSIONS_1);
    if (error) return fprintf(stderr, "observed_start: %s\n", strerror(error)), 1;
    for (int i = 0; i < THREADS; i++) {
        if (pthread_create(&threads[i], NULL, count, NULL)) abort();
    }
    for (int i = 0; i < THREADS; i++) pthread_join(threads[i], NULL);
    error = observed_stop(&run);
    fprintf(stderr, "%" PRIu64 "\n", atomic_load(&sum));
    if (error) return fprintf(stderr, "observed_stop: %s\n", strerror(error)), 1;
    return 0;
}
