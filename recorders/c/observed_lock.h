/* observed_lock.h - records the calls of a lock while the run goes on, as the stream of events that
 * recorders/stream_to_history.py describes, to a file descriptor.
 *
 * Between observed_start and observed_stop call observed_begin before each call of the lock, and observed_return, or
 * observed_withdraw, after it. A thread of its own writes the events; one that is OBSERVED_SLOTS events ahead of it
 * waits. A call has one of 64 lanes while it goes on, so any number of threads may make calls. If none is free,
 * observed_begin waits for one. Calls that may wait for the lock have at most 56, so a release always finds one soon.
 *
 * Begun by observed_start_words, the stream also has what the program reads and writes under the lock: gets and puts of
 * so many words. These are 0 in the beginning: if yours aren't, put them before all calls. A get is around all that a
 * read does, its calls of the lock too, and a put around a write in write mode. So a read that forgets to validate is
 * found. Gets and puts never wait for a lane, and have 24 of their own: 40 are left for calls, 32 for those that may
 * wait.
 *
 * Tickets are taken by sequentially consistent additions. If the lock's accesses are weaker, a processor may let them
 * pass these, and a right lock may be blamed; x86-64 doesn't. C11, POSIX. A struct observed is static: all zeros. */
#ifndef OBSERVED_LOCK_H
#define OBSERVED_LOCK_H

#include <errno.h>
#include <pthread.h>
#include <sched.h>
#include <signal.h>
#include <stdatomic.h>
#include <stdint.h>
#include <stdlib.h>
#include <string.h>
#include <time.h>
#include <unistd.h>

/* The calls. The codes of stamped.h are higher by one. */
enum observed_call {
    OBSERVED_TRY_WRITE, OBSERVED_TRY_READ, OBSERVED_WRITE_LOCK, OBSERVED_READ_LOCK, OBSERVED_OPTIMISTIC,
    OBSERVED_VALIDATE, OBSERVED_UNLOCK_WRITE, OBSERVED_UNLOCK_READ, OBSERVED_UNLOCK, OBSERVED_TO_WRITE,
    OBSERVED_TO_READ, OBSERVED_TO_OPTIMISTIC, OBSERVED_TRY_UNLOCK_WRITE, OBSERVED_TRY_UNLOCK_READ,
    OBSERVED_IS_WRITE_LOCKED, OBSERVED_IS_READ_LOCKED, OBSERVED_READ_COUNT
};
enum { OBSERVED_SLOTS = 1 << 16, OBSERVED_LANES = 64, OBSERVED_MAY_WAIT = 56, OBSERVED_MOST_WORDS = 16 };
enum { OBSERVED_GET = 17, OBSERVED_PUT = 18, OBSERVED_CONTENT = 38, OBSERVED_GETS = 20, OBSERVED_PUTS = 24 };

struct observed {
    _Alignas(128) _Atomic uint64_t tickets;
    _Alignas(128) _Atomic uint64_t drained, end; /* the recorded tickets are below the end */
    _Atomic unsigned threads;
    unsigned width; /* of gets and puts, 0 if there are none */
    unsigned char header[24];
    int file, error;
    atomic_int lost; /* why a put wasn't recorded, or 0 */
    uint64_t *words; /* of the slots */
    pthread_t drainer;
    struct { _Alignas(128) atomic_int taken; } lanes[OBSERVED_LANES];
    struct { _Atomic uint64_t head; uint64_t number; } slots[OBSERVED_SLOTS]; /* head: ticket + 1, lane, kind */
};

static inline void observed_pause(unsigned round) {
    struct timespec time = {0, round < 18 ? 4L << round : 1L << 20};
    if (round < 8) sched_yield();
    else nanosleep(&time, NULL);
}

/* Successive tickets have slots that lie apart. */
static inline uint64_t observed_slot(uint64_t ticket) {
    return ticket % OBSERVED_SLOTS / 8 + ticket % 8 * (OBSERVED_SLOTS / 8);
}

static inline void observed_event(struct observed *run, unsigned kind, int lane, uint64_t number,
                                  const uint64_t *words) {
    uint64_t ticket = atomic_fetch_add(&run->tickets, 1), slot = observed_slot(ticket);
    for (unsigned round = 0; ticket >= OBSERVED_SLOTS + atomic_load(&run->drained); round++) {
        if (ticket >= atomic_load(&run->end)) return;
        observed_pause(round);
    }
    if (words) memcpy(run->words + slot * run->width, words, run->width * sizeof *words);
    run->slots[slot].number = number;
    uint64_t head = (ticket + 1) << 16 | (unsigned)lane << 8 | kind;
    atomic_store_explicit(&run->slots[slot].head, head, memory_order_release);
}

static inline int observed_write(struct observed *run, const unsigned char *bytes, size_t length) {
    for (ssize_t written; length; bytes += written, length -= (size_t)written) {
        while ((written = write(run->file, bytes, length)) < 0 && errno == EINTR) {}
        if (written < 0) return errno;
    }
    return 0;
}

static inline void observed_bytes(unsigned char *at, uint64_t number) {
    for (int i = 0; i < 8; i++) at[i] = (unsigned char)(number >> 8 * i);
}

/* The bytes of an event. Returns how many they are. */
static inline size_t observed_copy(const struct observed *run, uint64_t slot, uint64_t head, unsigned char *at) {
    unsigned kind = head & 0xff, words = kind == OBSERVED_PUT || kind == OBSERVED_CONTENT ? run->width : 0;
    observed_bytes(at, head & 0xffff);
    observed_bytes(at + 8, run->slots[slot].number);
    for (unsigned i = 0; i < words; i++) observed_bytes(at + 16 + 8 * i, run->words[slot * run->width + i]);
    return 16 + 8 * words;
}

static inline void *observed_drain(void *given) {
    struct observed *run = given;
    unsigned char bytes[1 << 14];
    size_t length = 0, most = 16 + 8 * run->width;
    sigset_t pipe;
    sigemptyset(&pipe);
    sigaddset(&pipe, SIGPIPE);
    pthread_sigmask(SIG_BLOCK, &pipe, NULL);
    run->error = observed_write(run, run->header, run->width ? 24 : 16);
    for (uint64_t next = 0, round = 0; !run->error && next < atomic_load(&run->end);) {
        uint64_t slot = observed_slot(next), head = atomic_load_explicit(&run->slots[slot].head, memory_order_acquire);
        if (head >> 16 == ((next + 1) & UINT64_MAX >> 16)) {
            length += observed_copy(run, slot, head, bytes + length);
            next++, round = 0;
        } else {
            atomic_store(&run->drained, next);
            observed_pause((unsigned)round++);
        }
        if (length + most <= sizeof bytes && round != 12) continue;
        atomic_store(&run->drained, next);
        run->error = observed_write(run, bytes, length);
        length = 0;
    }
    if (!run->error) run->error = observed_write(run, bytes, length);
    if (run->error) atomic_store(&run->end, 0);
    return NULL;
}

/* Begins a stream. The numbers are the lock's: layout, most readers, most write acquisitions. Returns 0 or an errno. */
static inline int observed_start(struct observed *run, int file, int layout, unsigned readers, uint64_t versions) {
    uint64_t form = run->width ? 2 : 1; /* behind the letters stmp */
    observed_bytes(run->header, 0x706d7473 | form << 32 | (uint64_t)layout << 40 | (uint64_t)readers << 48);
    observed_bytes(run->header + 8, versions);
    observed_bytes(run->header + 16, run->width);
    run->file = file;
    atomic_store(&run->end, UINT64_MAX);
    return pthread_create(&run->drainer, NULL, observed_drain, run);
}

/* The same, with gets and puts of so many words, 1 to 16. Memory for them is allocated, and kept. */
static inline int observed_start_words(struct observed *run, int file, int layout, unsigned readers, uint64_t versions,
                                       unsigned width) {
    if (width < 1 || width > OBSERVED_MOST_WORDS) return EINVAL;
    run->words = calloc(OBSERVED_SLOTS, width * sizeof *run->words);
    if (!run->words) return ENOMEM;
    run->width = width;
    return observed_start(run, file, layout, readers, versions);
}

/* Lets the stream end at this moment. */
static inline void observed_end_now(struct observed *run) {
    uint64_t end = UINT64_MAX;
    atomic_compare_exchange_strong(&run->end, &end, atomic_load(&run->tickets));
}

/* Ends the stream: calls under way remain so, and later ones aren't recorded. Returns 0, or the errno of a write that
   failed, or EBUSY where too many puts were made at once: there recording stopped, and calls went on unrecorded. The
   file stays open. */
static inline int observed_stop(struct observed *run) {
    observed_end_now(run);
    pthread_join(run->drainer, NULL);
    return run->error ? run->error : atomic_load(&run->lost);
}

/* A number of the thread's own. */
static inline unsigned observed_thread(struct observed *run) {
    static _Thread_local unsigned mine = UINT32_MAX;
    if (mine == UINT32_MAX) mine = atomic_fetch_add(&run->threads, 1);
    return mine;
}

static inline int observed_takes(struct observed *run, unsigned lane) {
    return !atomic_load(&run->lanes[lane].taken) && !atomic_exchange(&run->lanes[lane].taken, 1);
}

/* A call begins, with its stamp or 0. Returns its lane; -1 if nothing is recorded any more. */
static inline int observed_begin(struct observed *run, enum observed_call call, uint64_t stamp) {
    static _Thread_local unsigned mine = UINT32_MAX;
    unsigned lanes = call == OBSERVED_WRITE_LOCK || call == OBSERVED_READ_LOCK ? OBSERVED_MAY_WAIT : OBSERVED_LANES;
    unsigned first = run->width ? OBSERVED_PUTS : 0;
    if (mine == UINT32_MAX) mine = observed_thread(run) % OBSERVED_MAY_WAIT;
    for (unsigned tried = 0; atomic_load(&run->end) == UINT64_MAX; tried++) {
        unsigned lane = (mine + tried) % OBSERVED_LANES;
        if (lane >= first && lane < lanes && observed_takes(run, lane)) {
            mine = lane;
            observed_event(run, call, (int)lane, stamp, NULL);
            return (int)lane;
        }
        if (tried % OBSERVED_LANES == OBSERVED_LANES - 1) observed_pause(tried / OBSERVED_LANES);
    }
    return -1;
}

static inline void observed_end(struct observed *run, int lane, unsigned kind, uint64_t number,
                                const uint64_t *words) {
    if (lane < 0) return;
    observed_event(run, kind, lane, number, words);
    atomic_store_explicit(&run->lanes[lane].taken, 0, memory_order_release);
}

/* The call returns: a stamp, a count, or 1 for yes and done and 0 for no and mismatch, as stamped_decide has it. */
static inline void observed_return(struct observed *run, int lane, enum observed_call call, uint64_t reply) {
    if (OBSERVED_UNLOCK_WRITE <= call && call <= OBSERVED_UNLOCK) observed_end(run, lane, reply ? 35 : 36, 0, NULL);
    else if (call == OBSERVED_READ_COUNT) observed_end(run, lane, 37, reply, NULL);
    else if (call < OBSERVED_TRY_UNLOCK_WRITE && call != OBSERVED_VALIDATE) observed_end(run, lane, 32, reply, NULL);
    else observed_end(run, lane, reply ? 33 : 34, 0, NULL);
}

/* The call ended and took no effect, as one that gave up. */
static inline void observed_withdraw(struct observed *run, int lane) { observed_end(run, lane, 48, 0, NULL); }

static inline int observed_begin_words(struct observed *run, unsigned kind, unsigned lanes, const uint64_t *words) {
    unsigned mine = observed_thread(run);
    if (!run->width) return -1;
    for (unsigned tried = 0; tried < lanes && atomic_load(&run->end) == UINT64_MAX; tried++) {
        unsigned lane = (mine + tried) % lanes;
        if (observed_takes(run, lane)) {
            observed_event(run, kind, (int)lane, 0, words);
            return (int)lane;
        }
    }
    return -1;
}

/* A read of the guarded words begins. Returns its lane; -1 if it isn't recorded, as beside 20 others. One that ends
   with no words is withdrawn. */
static inline int observed_begin_get(struct observed *run) {
    return observed_begin_words(run, OBSERVED_GET, OBSERVED_GETS, NULL);
}

/* The read ends, and these are the words that the program goes on with. */
static inline void observed_return_get(struct observed *run, int lane, const uint64_t *words) {
    observed_end(run, lane, OBSERVED_CONTENT, 0, words);
}

/* A write of the guarded words begins: all of them, as they will be. Returns its lane; -1 if it isn't recorded. Beside
   24 gets and puts it can't be, and recording ends. */
static inline int observed_begin_put(struct observed *run, const uint64_t *words) {
    int lane = observed_begin_words(run, OBSERVED_PUT, OBSERVED_PUTS, words);
    if (lane < 0 && run->width && atomic_load(&run->end) == UINT64_MAX) {
        atomic_store(&run->lost, EBUSY);
        observed_end_now(run);
    }
    return lane;
}

/* The words are written. */
static inline void observed_return_put(struct observed *run, int lane) { observed_end(run, lane, 35, 0, NULL); }

#endif
