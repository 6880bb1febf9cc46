// Times the accesses of the pairs of `timings value` (crates/timings) in C11, each sequentially consistent: the same
// loads, exchanges and subtractions on the word of a lock, with the same tests of the word found and the same pauses,
// round a plain number. Layout 1.
// `value [PAIRS [ROUNDS [OFTEN]]]` writes its lines to standard error, in the form of timings.
#include "../common/lock.h"
#include <pthread.h>
#include <sched.h>
#include <stdatomic.h>
#include <time.h>

enum { BETWEEN = 1024, MOST = 4, MORE = 16, SPINNING = 8 };

// A function of its own, as it is in `timings`.
#define LOOP __attribute__((noinline))

static const struct limits widest = {127, (UINT64_C(1) << 55) - 2};

struct guarded {
    _Alignas(64) _Atomic uint64_t word;
    uint64_t number;
};

// Spins, each time twice as long as before, and then lets other threads run.
static void pause_again(unsigned *rounds) {
    if (*rounds == SPINNING) {
        sched_yield();
        return;
    }
    for (unsigned i = 0; i < 1u << *rounds; i++) __builtin_ia32_pause();
    ++*rounds;
}

static uint64_t read_lock(struct guarded *guarded) {
    unsigned rounds = 0;
    uint64_t word = atomic_load(&guarded->word);
    for (;; pause_again(&rounds)) {
        if (!may_read(widest, word)) word = atomic_load(&guarded->word);
        else if (atomic_compare_exchange_strong(&guarded->word, &word, word + 1)) return word + 1;
    }
}

static void unlock_read(struct guarded *guarded) { atomic_fetch_sub(&guarded->word, 1); }

// 0 where no version is left.
static uint64_t write_lock(struct guarded *guarded) {
    unsigned rounds = 0;
    uint64_t word = atomic_load(&guarded->word);
    for (;; pause_again(&rounds)) {
        if (version(word) == widest.versions) return 0;
        if (!may_write(widest, word)) word = atomic_load(&guarded->word);
        else if (atomic_compare_exchange_strong(&guarded->word, &word, word + WRITER)) return word + WRITER;
    }
}

static void unlock_write(struct guarded *guarded, uint64_t stamp) {
    uint64_t word = atomic_load(&guarded->word);
    if (!holds_write(word, stamp)) abort();
    if (!atomic_compare_exchange_strong(&guarded->word, &word, word + WRITER)) abort();
}

static LOOP uint64_t read_pairs(struct guarded *guarded, uint64_t pairs) {
    uint64_t good = 0;
    for (uint64_t i = 0; i < pairs; i++) {
        good += read_lock(guarded) != 0 && guarded->number != 0;
        unlock_read(guarded);
    }
    return good;
}

static LOOP uint64_t write_pairs(struct guarded *guarded, uint64_t pairs) {
    uint64_t good = 0;
    for (uint64_t i = 0; i < pairs; i++) {
        uint64_t stamp = write_lock(guarded);
        if (!stamp) continue;
        guarded->number++;
        unlock_write(guarded, stamp);
        good++;
    }
    return good;
}

// Whether the stamp is still valid, by one load each time.
static LOOP uint64_t validations(struct guarded *guarded, uint64_t pairs) {
    uint64_t stamp = observed(atomic_load(&guarded->word)), good = 0;
    for (uint64_t i = 0; i < pairs; i++) good += validates(atomic_load(&guarded->word), stamp);
    return good;
}

struct job {
    struct guarded *guarded;
    uint64_t pairs, good;
};

static void *mostly_read(void *of) {
    struct job *job = of;
    for (uint64_t i = 0; i < job->pairs / BETWEEN; i++) {
        job->good += read_pairs(job->guarded, BETWEEN);
        write_pairs(job->guarded, 1);
    }
    return NULL;
}

static uint64_t now(void) {
    struct timespec at;
    clock_gettime(CLOCK_MONOTONIC, &at);
    return (uint64_t)at.tv_sec * 1000000000 + (uint64_t)at.tv_nsec;
}

static void tell(const char *name, int threads, uint64_t pairs, uint64_t start, uint64_t good) {
    uint64_t taken = now() - start;
    fprintf(stderr, "%s %d %" PRIu64 " %" PRIu64 " %" PRIu64 "\n",
            name, threads, pairs, taken, good);
}

static void side_by_side(struct guarded *guarded, int threads, uint64_t pairs) {
    pthread_t handles[MOST];
    struct job jobs[MOST];
    uint64_t start = now(), good = 0;
    for (int i = 0; i < threads; i++) {
        jobs[i] = (struct job){guarded, pairs, 0};
        if (i > 0 && pthread_create(&handles[i], NULL, mostly_read, &jobs[i])) abort();
    }
    mostly_read(&jobs[0]);
    good = jobs[0].good;
    for (int i = 1; i < threads; i++) {
        pthread_join(handles[i], NULL);
        good += jobs[i].good;
    }
    tell("mostly", threads, pairs, start, good);
}

static void alone(struct guarded *guarded, uint64_t pairs) {
    uint64_t start = now();
    uint64_t good = read_pairs(guarded, pairs);
    tell("read", 1, pairs, start, good);
    start = now();
    good = write_pairs(guarded, pairs);
    tell("write", 1, pairs, start, good);
    start = now();
    good = validations(guarded, pairs);
    tell("is_last", 1, pairs, start, good);
}

int main(int count, char **words) {
    uint64_t pairs = count > 1 ? strtoull(words[1], NULL, 10) : 1000;
    uint64_t rounds = count > 2 ? strtoull(words[2], NULL, 10) : 1;
    uint64_t often = count > 3 ? strtoull(words[3], NULL, 10) : 1;
    struct guarded *guarded = aligned_alloc(64, sizeof *guarded);
    if (!guarded) abort();
    atomic_init(&guarded->word, VERSION);
    guarded->number = 1;
    for (uint64_t round = 0; round < rounds; round++) {
        for (uint64_t i = 0; i < often; i++) alone(guarded, pairs);
        for (int threads = 1; threads <= MOST; threads++) side_by_side(guarded, threads, MORE * pairs);
    }
    free(guarded);
    return 0;
}
