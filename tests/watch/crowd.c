/* 80 threads wait for read mode of a lock that is held, more than the recorder has lanes. Once all lanes are taken in
   which calls may wait, two calls are withdrawn, as if they gave up. Then the lock is released, and all read. At the
   end one call is under way. The stream goes to standard output. */
#include "lock.h"
#include "observed_lock.h"

enum { THREADS = 80 };

static struct lock lock = {{1, STAMPED_READERS_1, STAMPED_VERSIONS_1}, 0};
static struct observed run;

static uint64_t made(enum observed_call call, uint64_t stamp) {
    int lane = observed_begin(&run, call, stamp);
    uint64_t reply = call_lock(&lock, call + 1, stamp);
    observed_return(&run, lane, call, reply);
    return reply;
}

static void *read_once(void *unused) {
    (void)unused;
    if (!made(OBSERVED_UNLOCK_READ, made(OBSERVED_READ_LOCK, 0))) abort();
    return NULL;
}

/* Waits for write mode for ever, and tells once the call is recorded. */
static void *wait_for_ever(void *begun) {
    int lane = observed_begin(&run, OBSERVED_WRITE_LOCK, 0);
    atomic_store((atomic_int *)begun, 1);
    observed_return(&run, lane, OBSERVED_WRITE_LOCK, call_lock(&lock, OBSERVED_WRITE_LOCK + 1, 0));
    return NULL;
}

static int has_room(void) {
    for (int i = 0; i < OBSERVED_MAY_WAIT; i++) {
        if (!atomic_load(&run.lanes[i].taken)) return 1;
    }
    return 0;
}

static void rest(void) {
    struct timespec time = {0, 1000000};
    nanosleep(&time, NULL);
}

int main(void) {
    pthread_t threads[THREADS], waiting;
    atomic_int begun = 0;
    atomic_init(&lock.word, stamped_opening(lock.limits.layout));
    if (observed_start(&run, 1, 1, STAMPED_READERS_1, STAMPED_VERSIONS_1)) abort();
    uint64_t stamp = made(OBSERVED_WRITE_LOCK, 0);
    for (int i = 0; i < THREADS; i++) {
        if (pthread_create(&threads[i], NULL, read_once, NULL)) abort();
    }
    while (has_room()) rest();
    for (int i = 0; i < 2; i++) observed_withdraw(&run, observed_begin(&run, OBSERVED_TRY_READ, 0));
    if (!made(OBSERVED_UNLOCK_WRITE, stamp)) abort();
    for (int i = 0; i < THREADS; i++) pthread_join(threads[i], NULL);
    made(OBSERVED_WRITE_LOCK, 0);
    if (pthread_create(&waiting, NULL, wait_for_ever, &begun)) abort();
    while (!atomic_load(&begun)) rest();
    return observed_stop(&run);
}
