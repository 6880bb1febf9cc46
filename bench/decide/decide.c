// Times the lock's call table in C over the same cycle of calls as `timings decide` (crates/timings).
// `decide [CALLS]` writes one line to standard error.
#include "lock.h"
#include <time.h>

enum { CYCLE = 20 };

static const enum kind cycle[CYCLE] = {
    OPTIMISTIC, VALIDATE, TRY_READ, READ_LOCK, IS_READ_LOCKED, UNLOCK_READ, READ_COUNT,
    TO_WRITE, IS_WRITE_LOCKED, TO_READ, TO_OPTIMISTIC,
    WRITE_LOCK, VALIDATE, UNLOCK_WRITE, TRY_WRITE, UNLOCK,
    TRY_READ, TRY_UNLOCK_READ, TRY_UNLOCK_WRITE, UNLOCK_WRITE,
};

struct run {
    uint64_t word, stamp, sum;
};

static uint64_t number_of(struct reply reply) {
    switch (reply.answer) {
    case STAMP: return reply.number;
    case YES: return 1;
    case NO: return 2;
    case DONE: return 3;
    case MISMATCH: return 4;
    case COUNT: return reply.number + 5;
    case CONTENT: break; // of the record alone
    }
    abort();
}

// Makes so many calls from the opening word. One that waits is passed over.
static struct run run_of(struct limits limits, uint64_t calls) {
    struct run run = {VERSION, 0, 0};
    for (uint64_t i = 0; i < calls; i++) {
        struct decision made = decide(limits, run.word, (struct call){cycle[i % CYCLE], run.stamp});
        if (made.effect == WAIT) continue;
        if (made.effect == CHANGE) run.word = made.word;
        if (made.reply.answer == STAMP) run.stamp = made.reply.number;
        run.sum = run.sum * 31 + number_of(made.reply);
    }
    return run;
}

int main(int argc, char **argv) {
    uint64_t calls = argc > 1 ? strtoull(argv[1], NULL, 10) : 1000;
    struct limits limits = {127, (UINT64_C(1) << 55) - 2};
    struct timespec start, end;
    clock_gettime(CLOCK_MONOTONIC, &start);
    struct run run = run_of(limits, calls);
    clock_gettime(CLOCK_MONOTONIC, &end);
    int64_t nanoseconds = (end.tv_sec - start.tv_sec) * INT64_C(1000000000) + end.tv_nsec - start.tv_nsec;
    fprintf(stderr, "calls %" PRIu64 " nanoseconds %" PRId64 " sum %" PRIu64 "\n", calls, nanoseconds, run.sum);
}
