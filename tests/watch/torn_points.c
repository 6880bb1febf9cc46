/* The run of recorders/c/observed_points.c, in whose first read another thread moves the point. With an argument reads
   aren't validated. */
#include "lock.h"
#include "observed_lock.h"

static void meet(void);

#define main run_all
#define sched_yield meet
#include "observed_points.c"
#undef main

static void *move_once(void *unused) {
    move_point(1, 2);
    return unused;
}

static void meet(void) {
    static atomic_int has_met;
    pthread_t writer;
    if (atomic_exchange(&has_met, 1)) return;
    if (pthread_create(&writer, NULL, move_once, NULL)) abort();
    pthread_join(writer, NULL);
}

int main(int words, char **word) {
    uint64_t first[WIDTH];
    (void)word;
    rounds = 200;
    forgets = words > 1;
    atomic_init(&lock.word, stamped_opening(lock.limits.layout));
    if (observed_start_words(&run, 1, 1, STAMPED_READERS_1, STAMPED_VERSIONS_1, WIDTH)) abort();
    get_point(first);
    run_threads();
    return observed_stop(&run);
}
