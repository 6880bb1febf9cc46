// Times calls of a lock: recorder none|FILE CALLS ROUNDS. They are not recorded, or as a stream to the file by
// recorders/c. Prints lines THREADS CALLS NANOSECONDS CPU_NANOSECONDS for each round. As RecorderBench.java, but the
// lock is the table of bench/common on an atomic word.
#include "lock.h"
#include "observed_lock.h"
#include <fcntl.h>
#include <string.h>

static struct observed *run; // none where nothing is recorded
static const struct limits limits = {127, (UINT64_C(1) << 55) - 2};
static _Alignas(128) _Atomic uint64_t word;
static _Alignas(128) _Atomic uint64_t left, right;
static int each;

static uint64_t call_lock(enum kind kind, uint64_t stamp) {
    uint64_t now = atomic_load(&word);
    for (;;) {
        struct decision made = decide(limits, now, (struct call){kind, stamp});
        if (made.effect == ANSWER) return made.reply.answer == STAMP ? made.reply.number : made.reply.answer == YES;
        if (made.effect == CHANGE && atomic_compare_exchange_weak(&word, &now, made.word))
            return made.reply.answer == STAMP ? made.reply.number : 1;
        if (made.effect == WAIT) {
            sched_yield();
            now = atomic_load(&word);
        }
    }
}

static inline uint64_t made(enum kind kind, uint64_t stamp) {
    if (!run) return call_lock(kind, stamp);
    int lane = observed_begin(run, (enum observed_call)kind, stamp);
    uint64_t reply = call_lock(kind, stamp);
    observed_return(run, lane, (enum observed_call)kind, reply);
    return reply;
}

static void *work(void *unused) {
    uint64_t seen = 0;
    (void)unused;
    for (int i = 0; i < each; i++) {
        if (i % 20 == 0) {
            uint64_t stamp = made(WRITE_LOCK, 0);
            atomic_store_explicit(&left, atomic_load_explicit(&left, memory_order_relaxed) + 1, memory_order_relaxed);
            atomic_store_explicit(&right, atomic_load_explicit(&right, memory_order_relaxed) - 1, memory_order_relaxed);
            if (!made(UNLOCK_WRITE, stamp)) abort();
        } else {
            uint64_t stamp = made(OPTIMISTIC, 0), sum = atomic_load(&left) + atomic_load(&right);
            if (made(VALIDATE, stamp)) seen += sum;
        }
    }
    if (seen) abort();
    return NULL;
}

static uint64_t now(clockid_t clock) {
    struct timespec time;
    clock_gettime(clock, &time);
    return (uint64_t)time.tv_sec * 1000000000 + (uint64_t)time.tv_nsec;
}

static void time_threads(int threads, int calls, const char *file) {
    pthread_t started[8];
    int out = -1;
    each = calls / threads / 2;
    atomic_store(&word, VERSION);
    if (strcmp(file, "none")) {
        out = open(file, O_WRONLY | O_CREAT | O_TRUNC, 0666);
        run = calloc(1, sizeof *run + 128);
        run = (struct observed *)(((uintptr_t)run + 127) / 128 * 128);
        if (observed_start(run, out, 1, 127, limits.versions)) abort();
    }
    uint64_t begin = now(CLOCK_MONOTONIC), cpu = now(CLOCK_PROCESS_CPUTIME_ID);
    for (int i = 0; i < threads; i++)
        if (pthread_create(&started[i], NULL, work, NULL)) abort();
    for (int i = 0; i < threads; i++) pthread_join(started[i], NULL);
    begin = now(CLOCK_MONOTONIC) - begin;
    if (run && (observed_stop(run) || close(out))) abort();
    cpu = now(CLOCK_PROCESS_CPUTIME_ID) - cpu;
    printf("%d %d %" PRIu64 " %" PRIu64 "\n", threads, each * threads * 2, begin, cpu);
}

int main(int count, char **words) {
    if (count != 4) return 2;
    for (int round = 0; round < atoi(words[3]); round++) {
        time_threads(1, atoi(words[2]), words[1]);
        time_threads(4, atoi(words[2]), words[1]);
        time_threads(8, atoi(words[2]), words[1]);
    }
    return 0;
}
