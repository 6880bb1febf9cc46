// Times the accesses of the calls of `timings record` (crates/timings) in C11, each sequentially consistent: the same
// loads, stores and exchanges on a lock word and the words beside it, with the same tests. Layout
// 1.
// Threads that update one record let others run where they lose, and each sum is checked.
// `record [CALLS [ROUNDS [OFTEN]]]` writes its lines to standard error, in the form of timings.
#include <inttypes.h>
#include <pthread.h>
#include <sched.h>
#include <stdatomic.h>
#include <stdint.h>
#include <stdio.h>
#include <stdlib.h>
#include <time.h>

enum { VERSION = 256, WRITER = 128, WORDS = 16, MOST = 4, BETWEEN = 10000 };
enum { MORE = 1024, MORE_UPDATES = 4 };

// A function of its own, as it is in `timings`.
#define LOOP __attribute__((noinline))

static const uint64_t VERSIONS = (uint64_t)1 << 50;

struct record {
    _Alignas(64) _Atomic uint64_t words[1 + WORDS]; // the lock word first
    size_t width;
};

static int is_held(uint64_t word) { return word % VERSION == WRITER; }

// One load, a load a word, and one load.
static int get(struct record *record, uint64_t *into) {
    uint64_t word = atomic_load(&record->words[0]);
    if (is_held(word)) return 0;
    for (size_t i = 0; i < record->width; i++) into[i] = atomic_load(&record->words[i + 1]);
    return atomic_load(&record->words[0]) == word;
}

// One load, one exchange, a store a word, and one exchange that releases.
static int put(struct record *record, const uint64_t *from) {
    uint64_t word = atomic_load(&record->words[0]);
    if (is_held(word) || word / VERSION > VERSIONS) return 0;
    if (!atomic_compare_exchange_strong(&record->words[0], &word, word + WRITER)) return 0;
    for (size_t i = 0; i < record->width; i++) atomic_store(&record->words[i + 1], from[i]);
    uint64_t held = word + WRITER;
    atomic_compare_exchange_strong(&record->words[0], &held, held + WRITER);
    return 1;
}

enum updated { UPDATED, AGAIN, SPENT };

// One load, a load a word, and one load; one exchange, a store a word, and one exchange that releases.
static inline enum updated update_once(struct record *record) {
    uint64_t row[WORDS];
    uint64_t word = atomic_load(&record->words[0]);
    if (is_held(word)) return AGAIN;
    for (size_t i = 0; i < record->width; i++) row[i] = atomic_load(&record->words[i + 1]);
    if (atomic_load(&record->words[0]) != word) return AGAIN;
    for (size_t i = 0; i < record->width; i++) row[i]++;
    if (word / VERSION > VERSIONS) return SPENT;
    uint64_t held = word + WRITER;
    if (!atomic_compare_exchange_strong(&record->words[0], &word, held)) return AGAIN;
    for (size_t i = 0; i < record->width; i++) atomic_store(&record->words[i + 1], row[i]);
    atomic_compare_exchange_strong(&record->words[0], &held, held + WRITER);
    return UPDATED;
}

// Adds one to each word, and lets others run where it loses.
static int update(struct record *record) {
    enum updated updated;
    while ((updated = update_once(record)) == AGAIN) sched_yield();
    return updated == UPDATED;
}

static LOOP uint64_t gets(struct record *record, uint64_t calls) {
    uint64_t row[WORDS] = {0}, good = 0;
    for (uint64_t i = 0; i < calls; i++) {
        int is_good = get(record, row);
        __asm__ volatile("" : : "r"(row) : "memory"); // the words are used
        good += is_good;
    }
    return good;
}

static LOOP uint64_t puts_in_turn(struct record *record, uint64_t calls) {
    uint64_t row[WORDS] = {0}, good = 0;
    for (uint64_t i = 0; i < calls; i++) good += put(record, row);
    return good;
}

static LOOP uint64_t updates(struct record *record, uint64_t calls) {
    uint64_t good = 0;
    for (uint64_t i = 0; i < calls; i++) good += update(record);
    return good;
}

static uint64_t now(void) {
    struct timespec at;
    clock_gettime(CLOCK_MONOTONIC, &at);
    return (uint64_t)at.tv_sec * 1000000000 + (uint64_t)at.tv_nsec;
}

static void tell(const char *name, int threads, uint64_t calls, uint64_t start, uint64_t good) {
    uint64_t taken = now() - start;
    fprintf(stderr, "%s %d %" PRIu64 " %" PRIu64 " %" PRIu64 "\n",
            name, threads, calls, taken, good);
}

struct job {
    struct record *record;
    uint64_t calls, good;
};

static void *read_alone(void *of) {
    struct job *job = of;
    job->good = gets(job->record, job->calls);
    return NULL;
}

static void *update_alone(void *of) {
    struct job *job = of;
    job->good = updates(job->record, job->calls);
    return NULL;
}

struct writer {
    struct record *record;
    _Atomic int is_over;
};

static void *put_until(void *of) {
    struct writer *writer = of;
    uint64_t start = now(), due = BETWEEN;
    for (uint64_t i = 0; !atomic_load(&writer->is_over); i++) {
        uint64_t taken = now() - start;
        if (taken >= due) {
            uint64_t row[WORDS] = {i, i};
            due = taken + BETWEEN;
            put(writer->record, row);
        }
    }
    return NULL;
}

static uint64_t sum_of(struct record *record, int threads, uint64_t calls, void *part(void *)) {
    pthread_t handles[MOST];
    struct job jobs[MOST];
    for (int i = 0; i < threads; i++) {
        jobs[i] = (struct job){record, calls, 0};
        if (i > 0 && pthread_create(&handles[i], NULL, part, &jobs[i])) abort();
    }
    part(&jobs[0]);
    uint64_t good = jobs[0].good;
    for (int i = 1; i < threads; i++) {
        pthread_join(handles[i], NULL);
        good += jobs[i].good;
    }
    return good;
}

static uint64_t read_by(struct record *record, int threads, uint64_t calls) {
    return sum_of(record, threads, calls, read_alone);
}

// How many updates of two words succeeded; 0 where the words didn't grow by as many.
static uint64_t update_by(struct record *record, int threads, uint64_t calls) {
    uint64_t one = atomic_load(&record->words[1]), other = atomic_load(&record->words[2]);
    uint64_t good = sum_of(record, threads, calls, update_alone);
    if (atomic_load(&record->words[1]) != one + good) return 0;
    if (atomic_load(&record->words[2]) != other + good) return 0;
    return good;
}

static uint64_t beside_writer(struct record *record, int threads, uint64_t calls) {
    pthread_t handle;
    struct writer writer = {record, 0};
    if (pthread_create(&handle, NULL, put_until, &writer)) abort();
    uint64_t good = read_by(record, threads, calls);
    atomic_store(&writer.is_over, 1);
    pthread_join(handle, NULL);
    return good;
}

static void alone(struct record *record, const char *const names[3], uint64_t calls) {
    uint64_t start = now();
    uint64_t good = gets(record, calls);
    tell(names[0], 1, calls, start, good);
    start = now();
    good = puts_in_turn(record, calls);
    tell(names[1], 1, calls, start, good);
    start = now();
    good = updates(record, calls);
    tell(names[2], 1, calls, start, good);
}

static void together(struct record *record, uint64_t calls) {
    for (int threads = 1; threads <= MOST; threads++) {
        uint64_t start = now(), good = read_by(record, threads, MORE * calls);
        tell("readers", threads, MORE * calls, start, good);
        start = now();
        good = beside_writer(record, threads, MORE * calls);
        tell("beside", threads, MORE * calls, start, good);
    }
    for (int threads = 1; threads <= MOST; threads++) {
        uint64_t start = now(), good = update_by(record, threads, MORE_UPDATES * calls);
        tell("updaters", threads, MORE_UPDATES * calls, start, good);
    }
}

static struct record *made(size_t width) {
    struct record *record = aligned_alloc(64, sizeof *record);
    if (!record) abort();
    for (size_t i = 0; i <= WORDS; i++) atomic_init(&record->words[i], 0);
    atomic_init(&record->words[0], VERSION);
    record->width = width;
    return record;
}

int main(int count, char **words) {
    uint64_t calls = count > 1 ? strtoull(words[1], NULL, 10) : 1000;
    uint64_t rounds = count > 2 ? strtoull(words[2], NULL, 10) : 1;
    uint64_t often = count > 3 ? strtoull(words[3], NULL, 10) : 1;
    struct record *two = made(2), *sixteen = made(WORDS);
    for (uint64_t round = 0; round < rounds; round++) {
        for (uint64_t i = 0; i < often; i++) {
            alone(two, (const char *const[]){"into2", "put2", "update2"}, calls);
            alone(sixteen, (const char *const[]){"into16", "put16", "update16"}, calls);
        }
        together(two, calls);
    }
    free(two);
    free(sixteen);
    return 0;
}
