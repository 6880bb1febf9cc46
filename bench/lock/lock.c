// Times the accesses of the pairs of `timings lock` (crates/timings) in C11, each sequentially consistent: the same
// loads and exchanges on one word, with the same tests of the word found. Layout 1.
// `lock [PAIRS [ROUNDS [OFTEN]]]` writes its lines to standard error, in the form of timings.
#include <inttypes.h>
#include <pthread.h>
#include <stdatomic.h>
#include <stdint.h>
#include <stdio.h>
#include <stdlib.h>
#include <time.h>

enum { VERSION = 256, WRITER = 128, READERS = 127, BETWEEN = 1024, MOST = 4, MORE = 1024 };

// A function of its own, as it is in `timings`.
#define LOOP __attribute__((noinline))

static const uint64_t VERSIONS = (uint64_t)1 << 50;

struct lock {
    _Alignas(64) _Atomic uint64_t word;
};

static uint64_t holders(uint64_t word) { return word & (VERSION - 1); }

// 0 where write mode is held.
static uint64_t optimistic(struct lock *lock) {
    uint64_t word = atomic_load(&lock->word);
    return holders(word) == WRITER ? 0 : word - holders(word);
}

static int validate(struct lock *lock, uint64_t stamp) {
    uint64_t word = atomic_load(&lock->word);
    if (holders(word) == WRITER) return stamp == word;
    uint64_t observed = word - holders(word);
    return stamp - observed < WRITER || (observed > VERSION && stamp == observed - WRITER);
}

// One load and one exchange; 0 where it has none, and where the exchange loses.
static uint64_t try_read(struct lock *lock) {
    uint64_t word = atomic_load(&lock->word);
    if (holders(word) >= READERS) return 0;
    return atomic_compare_exchange_strong(&lock->word, &word, word + 1) ? word + 1 : 0;
}

static int unlock_read(struct lock *lock, uint64_t stamp) {
    uint64_t word = atomic_load(&lock->word);
    uint64_t readers = holders(word), observed = word - readers;
    if (readers == WRITER || readers == 0) return 0;
    if (stamp <= observed || stamp - observed >= WRITER) return 0;
    return atomic_compare_exchange_strong(&lock->word, &word, word - 1);
}

static uint64_t try_write(struct lock *lock) {
    uint64_t word = atomic_load(&lock->word);
    if (holders(word) != 0 || word / VERSION - 1 >= VERSIONS) return 0;
    return atomic_compare_exchange_strong(&lock->word, &word, word + WRITER) ? word + WRITER : 0;
}

static int unlock_write(struct lock *lock, uint64_t stamp) {
    uint64_t word = atomic_load(&lock->word);
    if (stamp != word || holders(word) != WRITER) return 0;
    return atomic_compare_exchange_strong(&lock->word, &word, word + WRITER);
}

static LOOP uint64_t optimistic_pairs(struct lock *lock, uint64_t pairs) {
    uint64_t good = 0;
    for (uint64_t i = 0; i < pairs; i++) good += validate(lock, optimistic(lock));
    return good;
}

// With the test that the stamp isn't 0, as the answers of ours are made.
static LOOP uint64_t tested_pairs(struct lock *lock, uint64_t pairs) {
    uint64_t good = 0;
    for (uint64_t i = 0; i < pairs; i++) {
        uint64_t stamp = optimistic(lock);
        if (stamp) good += validate(lock, stamp);
    }
    return good;
}

// What such a pair can't be below: its two loads, and one compare.
static LOOP uint64_t least_pairs(struct lock *lock, uint64_t pairs) {
    uint64_t good = 0;
    for (uint64_t i = 0; i < pairs; i++) {
        uint64_t word = atomic_load(&lock->word);
        good += atomic_load(&lock->word) == word;
    }
    return good;
}

static LOOP uint64_t read_pairs(struct lock *lock, uint64_t pairs) {
    uint64_t good = 0;
    for (uint64_t i = 0; i < pairs; i++) good += unlock_read(lock, try_read(lock));
    return good;
}

static LOOP uint64_t write_pairs(struct lock *lock, uint64_t pairs) {
    uint64_t good = 0;
    for (uint64_t i = 0; i < pairs; i++) good += unlock_write(lock, try_write(lock));
    return good;
}

// A release whose exchange loses is made again.
static void read_once(struct lock *lock) {
    uint64_t stamp = try_read(lock);
    while (stamp && !unlock_read(lock, stamp)) {}
}

struct job {
    struct lock *lock;
    uint64_t pairs, good;
};

static void *validated(void *of) {
    struct job *job = of;
    for (uint64_t i = 0; i < job->pairs / BETWEEN; i++) {
        job->good += optimistic_pairs(job->lock, BETWEEN);
        read_once(job->lock);
    }
    return NULL;
}

static uint64_t now(void) {
    struct timespec at;
    clock_gettime(CLOCK_MONOTONIC, &at);
    return (uint64_t)at.tv_sec * 1000000000 + (uint64_t)at.tv_nsec;
}

static void tell(const char *name, int threads, uint64_t pairs, uint64_t start, uint64_t good) {
    uint64_t taken = now() - start;
    fprintf(stderr, "%s %d %" PRIu64 " %" PRIu64 " %" PRIu64 "\n",
            name, threads, pairs, taken, good);
}

static void side_by_side(struct lock *lock, int threads, uint64_t pairs) {
    pthread_t handles[MOST];
    struct job jobs[MOST];
    uint64_t start = now(), good = 0;
    for (int i = 0; i < threads; i++) {
        jobs[i] = (struct job){lock, pairs, 0};
        if (i > 0 && pthread_create(&handles[i], NULL, validated, &jobs[i])) abort();
    }
    validated(&jobs[0]);
    good = jobs[0].good;
    for (int i = 1; i < threads; i++) {
        pthread_join(handles[i], NULL);
        good += jobs[i].good;
    }
    tell("mostly", threads, pairs, start, good);
}

static void alone(struct lock *lock, uint64_t pairs) {
    uint64_t start = now();
    uint64_t good = optimistic_pairs(lock, pairs);
    tell("optimistic", 1, pairs, start, good);
    start = now();
    good = tested_pairs(lock, pairs);
    tell("tested", 1, pairs, start, good);
    start = now();
    good = least_pairs(lock, pairs);
    tell("least", 1, pairs, start, good);
    start = now();
    good = read_pairs(lock, pairs);
    tell("read", 1, pairs, start, good);
    start = now();
    good = write_pairs(lock, pairs);
    tell("write", 1, pairs, start, good);
}

int main(int count, char **words) {
    uint64_t pairs = count > 1 ? strtoull(words[1], NULL, 10) : 1000;
    uint64_t rounds = count > 2 ? strtoull(words[2], NULL, 10) : 1;
    uint64_t often = count > 3 ? strtoull(words[3], NULL, 10) : 1;
    struct lock *lock = aligned_alloc(64, sizeof *lock);
    if (!lock) abort();
    atomic_init(&lock->word, VERSION);
    for (uint64_t round = 0; round < rounds; round++) {
        for (uint64_t i = 0; i < often; i++) alone(lock, pairs);
        for (int threads = 1; threads <= MOST; threads++) {
            side_by_side(lock, threads, MORE * pairs);
        }
    }
    free(lock);
    return 0;
}
