/* stamped.h - what a call of a stamped lock does to the lock's word.
 *
 * The lock is that of Java's java.util.concurrent.locks.StampedLock: write, read and optimistic modes,
 * with stamps. Its whole state is one 64-bit number, the word. The functions below have no state of
 * their own: they take the word as a number, and return what the call does with it. You keep the
 * word, usually in an _Atomic uint64_t, and put the new one in its place by compare-and-exchange.
 *
 * The functions allocate nothing, take no pointers, take no locks, start no threads and call nothing.
 * Any thread may call them at any time, a signal handler too. They test limits, words and codes, and
 * return an error for what they don't know. A stamp may be any number: it is compared with the word, and
 * no list of issued stamps is kept. So any read stamp of the current version releases one of its readers.
 *
 * Where a result may be an error, a number from 1 to 5 is one.
 *
 * Replies differ from those of the JDK's class in few cases (docs/JDK.md). A write stamp stays valid after
 * its release, until write mode is acquired again; the JDK's doesn't. While write mode is held, its stamp
 * alone is valid. In layout 1 a 128th reader gets no stamp, and the 127th gets another number. Once all
 * versions of the limits are spent, no call acquires write mode: STAMPED_WRITE_LOCK then returns 0 and
 * doesn't wait. In layout 2 stamps are other numbers.
 *
 * The lock isn't reentrant: while you hold read mode, STAMPED_WRITE_LOCK waits for yourself.
 */
#ifndef STAMPED_H
#define STAMPED_H

#include <stdint.h>

#ifdef __cplusplus
extern "C" {
#endif

/* Errors. Where several fit, the first one in this order is returned. */
enum {
    STAMPED_OK = 0,
    STAMPED_UNKNOWN_LAYOUT = 1,      /* the layout isn't 1 or 2 */
    STAMPED_LIMITS_OUT_OF_RANGE = 2, /* `readers` is 0, or there are more of either than the layout has room for */
    STAMPED_NO_WORD = 3,             /* no lock of the layout ever has this word */
    STAMPED_BEYOND_LIMITS = 4,       /* a word of the layout, with more readers or versions than the limits */
    STAMPED_UNKNOWN_CALL = 5         /* no code of a call */
};

/* The layout of a lock and its limits. They stay the same for the life of the lock. */
struct stamped_limits {
    uint32_t layout;   /* 1 or 2 */
    uint32_t readers;  /* how many may hold read mode at a time: 1 to 127, in layout 2 to 65,535 */
    uint64_t versions; /* how often write mode may be acquired in all, from 0 */
};

/* The widest limits of each layout. */
#define STAMPED_READERS_1 UINT32_C(127)
#define STAMPED_VERSIONS_1 UINT64_C(36028797018963966)
#define STAMPED_READERS_2 UINT32_C(65535)
#define STAMPED_VERSIONS_2 UINT64_C(70368744177662)

/* Calls, with the methods of Java's StampedLock. Where "stamp" stands, the call takes one. */
enum {
    STAMPED_TRY_WRITE = 1,        /* tryWriteLock() */
    STAMPED_TRY_READ = 2,         /* tryReadLock() */
    STAMPED_WRITE_LOCK = 3,       /* writeLock(): may have to wait, unless the versions are spent */
    STAMPED_READ_LOCK = 4,        /* readLock(): may have to wait */
    STAMPED_OPTIMISTIC = 5,       /* tryOptimisticRead() */
    STAMPED_VALIDATE = 6,         /* validate(stamp): never of 0 */
    STAMPED_UNLOCK_WRITE = 7,     /* unlockWrite(stamp) */
    STAMPED_UNLOCK_READ = 8,      /* unlockRead(stamp) */
    STAMPED_UNLOCK = 9,           /* unlock(stamp) */
    STAMPED_TO_WRITE = 10,        /* tryConvertToWriteLock(stamp): of a read stamp if there is no other reader */
    STAMPED_TO_READ = 11,         /* tryConvertToReadLock(stamp) */
    STAMPED_TO_OPTIMISTIC = 12,   /* tryConvertToOptimisticRead(stamp) */
    STAMPED_TRY_UNLOCK_WRITE = 13, /* tryUnlockWrite() */
    STAMPED_TRY_UNLOCK_READ = 14, /* tryUnlockRead() */
    STAMPED_IS_WRITE_LOCKED = 15, /* isWriteLocked() */
    STAMPED_IS_READ_LOCKED = 16,  /* isReadLocked() */
    STAMPED_READ_COUNT = 17       /* getReadLockCount() */
};

/* What a call does with the word that it found. Look at `word` in this order:

     below STAMPED_LEAST_WORD   no word: STAMPED_WAIT, or an error; nothing is changed
     the word that you gave     the call returns `reply`, and leaves the word
     another word               exchange it for the one that you gave; then the call returns `reply`

   The order matters if what you gave was no word itself: on 3 the error is STAMPED_NO_WORD, which is 3. */
struct stamped_decision {
    uint64_t word;
    uint64_t reply; /* what the call returns; 0 with a wait or an error */
};

/* Every word is at least this. */
#define STAMPED_LEAST_WORD UINT64_C(256)

/* The mode isn't free: look again later, or give up. STAMPED_WRITE_LOCK and STAMPED_READ_LOCK alone. */
#define STAMPED_WAIT UINT64_C(16)

/* Replies. 0 says no. Acquisitions and conversions return a stamp, or 0 where they fail, and so does
   STAMPED_OPTIMISTIC, which fails while write mode is held. The stamp of a conversion takes the place of the
   one that was given; where it fails, what that one holds is still held. STAMPED_READ_COUNT returns how many
   hold read mode. The other calls return one of these. */
enum {
    STAMPED_NO = 0,       /* STAMPED_VALIDATE, the queries, STAMPED_TRY_UNLOCK_WRITE and _READ */
    STAMPED_YES = 1,
    STAMPED_MISMATCH = 0, /* STAMPED_UNLOCK_WRITE, _READ and STAMPED_UNLOCK: the stamp matches no held mode
                             that the call releases,
                             and nothing is released (IllegalMonitorStateException in Java) */
    STAMPED_DONE = 1
};

/* Kinds of stamps. */
enum {
    STAMPED_NEITHER = 16,        /* no stamp */
    STAMPED_WRITE_STAMP = 17,    /* of a hold of write mode */
    STAMPED_READ_STAMP = 18,     /* of a hold of read mode */
    STAMPED_OPTIMISTIC_STAMP = 19 /* of an optimistic read */
};

/* What a number is as a stamp. */
struct stamped_kind {
    uint32_t kind;    /* a kind, or an error */
    uint64_t version; /* how often write mode had been acquired, counting the acquisition that gave a write
                         stamp; 0 for no stamp and for an error */
    uint64_t readers; /* of a read stamp, how many held read mode, with the one who got it; otherwise 0 */
};

/* The word of a new lock. 0, which is no word, where the layout isn't 1 or 2. */
uint64_t stamped_opening(uint32_t layout);

/* Whether the limits are in range. Returns STAMPED_OK, STAMPED_UNKNOWN_LAYOUT or
   STAMPED_LIMITS_OUT_OF_RANGE. */
uint32_t stamped_check_limits(struct stamped_limits limits);

/* Whether some lock with these limits has this word. Returns STAMPED_OK, an error of
   stamped_check_limits, STAMPED_NO_WORD or STAMPED_BEYOND_LIMITS. */
uint32_t stamped_check_word(struct stamped_limits limits, uint64_t word);

/* What a call does on this word. A call that takes no stamp ignores `stamp`; any number may be given.
   Errors are in `word` of the result: one of stamped_check_word, or STAMPED_UNKNOWN_CALL.

   Where the result is another word, the call is made only once you have exchanged the very `word` that
   you gave for it, in one atomic step. If another word is there by then, decide again on that. */
struct stamped_decision stamped_decide(struct stamped_limits limits, uint64_t word, uint32_t call, uint64_t stamp);

/* What a number is as a stamp of a layout, by its value alone. The error is STAMPED_UNKNOWN_LAYOUT. */
struct stamped_kind stamped_kind_of(uint32_t layout, uint64_t stamp);

#ifdef __cplusplus
}
#endif

#endif
