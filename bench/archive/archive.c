/* Times the static library. `archive decide [CALLS]` makes the cycle of calls of bench/decide/decide.c through
   stamped_decide, `archive pairs [PAIRS [ROUNDS]]` pairs of try_read and unlock_read on the lock of
   examples/c. Both write their lines to standard error, in the form of decide.c and of bench/lock/lock.c. */
#include "../../examples/c/lock.h"
#include <inttypes.h>
#include <stdio.h>
#include <stdlib.h>
#include <string.h>
#include <time.h>

enum { TURNS = 20 };

/* A call of the cycle; whether its reply is a stamp; and the number that decide.c counts its reply as, which is
   the base and the reply, added or taken away: yes, no, done, mismatch and counts from 1 on. */
struct turn {
    uint32_t call, stamped;
    uint64_t base, sign;
};

#define STAMP(call) {call, 1, 0, 1}
#define YES_OR_NO(call) {call, 0, 2, UINT64_MAX}
#define DONE_OR_MISMATCH(call) {call, 0, 4, UINT64_MAX}
#define COUNT(call) {call, 0, 5, 1}

static const struct turn cycle[TURNS] = {
    STAMP(STAMPED_OPTIMISTIC), YES_OR_NO(STAMPED_VALIDATE), STAMP(STAMPED_TRY_READ), STAMP(STAMPED_READ_LOCK),
    YES_OR_NO(STAMPED_IS_READ_LOCKED), DONE_OR_MISMATCH(STAMPED_UNLOCK_READ), COUNT(STAMPED_READ_COUNT),
    STAMP(STAMPED_TO_WRITE), YES_OR_NO(STAMPED_IS_WRITE_LOCKED), STAMP(STAMPED_TO_READ), STAMP(STAMPED_TO_OPTIMISTIC),
    STAMP(STAMPED_WRITE_LOCK), YES_OR_NO(STAMPED_VALIDATE), DONE_OR_MISMATCH(STAMPED_UNLOCK_WRITE),
    STAMP(STAMPED_TRY_WRITE), DONE_OR_MISMATCH(STAMPED_UNLOCK), STAMP(STAMPED_TRY_READ),
    YES_OR_NO(STAMPED_TRY_UNLOCK_READ), YES_OR_NO(STAMPED_TRY_UNLOCK_WRITE), DONE_OR_MISMATCH(STAMPED_UNLOCK_WRITE),
};

static const struct stamped_limits limits = {1, STAMPED_READERS_1, STAMPED_VERSIONS_1};

static int64_t now(void) {
    struct timespec at;
    clock_gettime(CLOCK_MONOTONIC, &at);
    return at.tv_sec * INT64_C(1000000000) + at.tv_nsec;
}

// One that waits is passed over.
static void decide(uint64_t calls) {
    uint64_t word = stamped_opening(limits.layout), stamp = 0, sum = 0;
    int64_t start = now();
    for (uint64_t i = 0; i < calls; i++) {
        const struct turn *turn = &cycle[i % TURNS];
        struct stamped_decision made = stamped_decide(limits, word, turn->call, stamp);
        if (made.word == STAMPED_WAIT) continue;
        word = made.word;
        if (turn->stamped) stamp = made.reply;
        sum = sum * 31 + turn->base + turn->sign * made.reply;
    }
    fprintf(stderr, "calls %" PRIu64 " nanoseconds %" PRId64 " sum %" PRIu64 "\n", calls, now() - start, sum);
}

static void pairs(struct lock *lock, uint64_t count) {
    uint64_t good = 0;
    int64_t start = now();
    for (uint64_t i = 0; i < count; i++) {
        uint64_t stamp = call_lock(lock, STAMPED_TRY_READ, 0);
        good += call_lock(lock, STAMPED_UNLOCK_READ, stamp) == STAMPED_DONE;
    }
    fprintf(stderr, "read 1 %" PRIu64 " %" PRId64 " %" PRIu64 "\n", count, now() - start, good);
}

int main(int count, char **words) {
    uint64_t first = count > 2 ? strtoull(words[2], NULL, 10) : 1000;
    uint64_t rounds = count > 3 ? strtoull(words[3], NULL, 10) : 1;
    if (count > 1 && !strcmp(words[1], "decide")) {
        decide(first);
        return 0;
    }
    struct lock *lock = aligned_alloc(64, 64);
    if (!lock) abort();
    lock->limits = limits;
    atomic_init(&lock->word, stamped_opening(limits.layout));
    for (uint64_t round = 0; round < rounds; round++) pairs(lock, first);
    free(lock);
    return 0;
}
