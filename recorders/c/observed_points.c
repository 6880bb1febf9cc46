/* Four threads ask where a point is, and every fourth time they move it, under the lock of examples/c. Their calls go
   to standard output as a stream, with both coordinates as they read and write them. The first argument is how many
   rounds each makes, 1000 if there is none. With a second one reads aren't validated. Where a write comes in the middle
   of such a read, it finds the coordinates of two places, and no order of the calls explains the run. */
#include "lock.h"
#include "observed_lock.h"
#include <stdio.h>

enum { THREADS = 4, WIDTH = 2 };

static struct lock lock = {{1, STAMPED_READERS_1, STAMPED_VERSIONS_1}, 0};
static struct observed run;
static _Atomic uint64_t point[WIDTH]; /* in atomics, since optimistic reads are beside writers */
static int rounds = 1000, forgets;

static uint64_t observed_call(enum observed_call call, uint64_t stamp) {
    int lane = observed_begin(&run, call, stamp);
    uint64_t reply = call_lock(&lock, call + 1, stamp);
    observed_return(&run, lane, call, reply);
    return reply;
}

static void read_words(uint64_t *words) {
    words[0] = atomic_load(&point[0]);
    sched_yield(); /* lets others come in between, as they seldom do by themselves */
    words[1] = atomic_load(&point[1]);
}

/* Reads without acquiring anything, and in read mode if a writer came in between. */
static void read_point(uint64_t *words) {
    uint64_t stamp = observed_call(OBSERVED_OPTIMISTIC, 0);
    read_words(words);
    if (stamp && (forgets || observed_call(OBSERVED_VALIDATE, stamp))) return;
    stamp = observed_call(OBSERVED_READ_LOCK, 0);
    read_words(words);
    if (!observed_call(OBSERVED_UNLOCK_READ, stamp)) abort();
}

static void get_point(uint64_t *words) {
    int lane = observed_begin_get(&run);
    read_point(words);
    observed_return_get(&run, lane, words);
}

static void move_point(uint64_t right, uint64_t up) {
    uint64_t stamp = observed_call(OBSERVED_WRITE_LOCK, 0);
    uint64_t words[WIDTH] = {atomic_load(&point[0]) + right, atomic_load(&point[1]) + up};
    int lane = observed_begin_put(&run, words);
    for (int i = 0; i < WIDTH; i++) atomic_store(&point[i], words[i]);
    observed_return_put(&run, lane);
    if (!observed_call(OBSERVED_UNLOCK_WRITE, stamp)) abort();
}

static void *ask_and_move(void *unused) {
    (void)unused;
    for (int i = 0; i < rounds; i++) {
        uint64_t words[WIDTH];
        if (i % 4 == 0) move_point(1, 2);
        else get_point(words);
    }
    return NULL;
}

static void run_threads(void) {
    pthread_t threads[THREADS];
    for (int i = 0; i < THREADS; i++) {
        if (pthread_create(&threads[i], NULL, ask_and_move, NULL)) abort();
    }
    for (int i = 0; i < THREADS; i++) pthread_join(threads[i], NULL);
}

int main(int words, char **word) {
    if (words > 1) rounds = atoi(word[1]);
    forgets = words > 2;
    atomic_init(&lock.word, stamped_opening(lock.limits.layout));
    int error = observed_start_words(&run, 1, 1, STAMPED_READERS_1, STAMPED_VERSIONS_1, WIDTH);
    if (error) return fprintf(stderr, "observed_start_words: %s\n", strerror(error)), 1;
    run_threads();
    error = observed_stop(&run);
    if (error) return fprintf(stderr, "observed_stop: %s\n", strerror(error)), 1;
    return 0;
}
