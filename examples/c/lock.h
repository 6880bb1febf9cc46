/* A stamped lock in one atomic word. Each call's effect is stamped_decide's; here is how the word is
   exchanged, in what memory order, and how a call waits. */
#ifndef LOCK_H
#define LOCK_H

#include "stamped.h"
#include <sched.h>
#include <stdatomic.h>
#include <stdlib.h>

struct lock {
    struct stamped_limits limits;
    _Atomic uint64_t word;
};

/* Makes a call on the lock, and returns its reply. Waits where the call has to. */
static inline uint64_t call_lock(struct lock *lock, uint32_t call, uint64_t stamp) {
    uint64_t found = atomic_load(&lock->word);
    for (;;) {
        struct stamped_decision made = stamped_decide(lock->limits, found, call, stamp);
        if (made.word >= STAMPED_LEAST_WORD) {
            if (made.word == found || atomic_compare_exchange_strong(&lock->word, &found, made.word)) return made.reply;
        } else if (made.word == STAMPED_WAIT) {
            sched_yield();
            found = atomic_load(&lock->word);
        } else {
            abort(); /* an error: of the limits, the word or the call */
        }
    }
}

#endif
