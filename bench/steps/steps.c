// Times steps of a run in C over the same script as `timings steps` (crates/timings).
// `steps [STEPS [WIDTH]]` writes one line to standard error.
#include "machines.h"
#include <time.h>

enum { THREADS = 64, CALLS = 10000, ROUND = 13 };

static struct arg of(uint64_t thread, uint64_t index) {
    return (struct arg){.is_of = 1, .thread = thread, .index = index};
}

static struct script_call call(enum kind kind) { return (struct script_call){.kind = kind}; }

static struct script_call with(enum kind kind, struct arg stamp) {
    return (struct script_call){.kind = kind, .stamp = stamp};
}

// The call of this index of a thread: a cycle of calls of the lock, each of which has the stamp of
// one before it.
static struct script_call lock_call(uint64_t thread, uint64_t i) {
    switch (i % ROUND) {
    case 0: return call(TRY_READ);
    case 1: return with(VALIDATE, of(thread, i - 1));
    case 2: return with(UNLOCK_READ, of(thread, i - 2));
    case 3: return call(TRY_WRITE);
    case 4: return with(VALIDATE, of(thread, i - 1));
    case 5: return with(UNLOCK_WRITE, of(thread, i - 2));
    case 6: return call(TRY_READ);
    case 7: return with(TO_WRITE, of(thread, i - 1));
    case 8: return with(UNLOCK, of(thread, i - 1));
    case 9: return with(UNLOCK, of(thread, i - 3));
    case 10: return call(OPTIMISTIC);
    case 11: return with(TO_READ, of(thread, i - 1));
    default: return with(TO_OPTIMISTIC, of(thread, i - 1));
    }
}

// Every fortieth is a put and the others are gets.
static struct script_call record_call(uint64_t i, const uint64_t *words) {
    struct script_call put = {.kind = PUT, .words = words};
    return i % 40 == 0 ? put : call(GET);
}

static uint64_t thread_of(uint64_t stretch) {
    return stretch * UINT64_C(2654435761) % (UINT64_C(1) << 32) >> 26;
}

// How many steps a stretch has: a call of the record has many.
static size_t steps_at_a_stretch(size_t width) { return width ? 100 : 1; }

static struct calls calls_of(uint64_t thread, size_t width) {
    struct calls calls = {made(malloc(CALLS * sizeof *calls.items)), CALLS};
    uint64_t *words = made(malloc(MOST_WORDS * sizeof *words));
    for (size_t i = 0; i < MOST_WORDS; i++) words[i] = thread;
    for (size_t i = 0; i < CALLS; i++)
        calls.items[i] = width ? record_call(i, words) : lock_call(thread, i);
    return calls;
}

static struct script *made_script(size_t steps, size_t width) {
    struct script *script = made(calloc(1, sizeof *script));
    script->limits = (struct limits){127, (UINT64_C(1) << 55) - 2};
    script->width = width;
    script->thread_count = THREADS;
    script->step_count = steps;
    script->steps = made(malloc(steps * sizeof *script->steps));
    for (size_t i = 0; i < steps; i++) script->steps[i] = thread_of(i / steps_at_a_stretch(width));
    for (uint64_t t = 0; t < THREADS; t++) script->threads[t] = calls_of(t, width);
    return script;
}

static uint64_t number_of(const struct run *run, const struct entry *entry) {
    switch (entry->reply.answer) {
    case STAMP: return entry->reply.number;
    case YES: return 1;
    case NO: return 2;
    case DONE: return 3;
    case MISMATCH: return 4;
    case COUNT: return entry->reply.number + 5;
    case CONTENT: return entry->content[run->script->width - 1] + 6;
    }
    abort();
}

// The entries as the digits of a number in base 31.
static uint64_t sum_of(const struct run *run) {
    uint64_t sum = run->words[0];
    for (size_t i = 0; i < run->length; i++) {
        const struct entry *entry = &run->entries[i];
        sum = sum * 31 + entry->thread;
        sum = sum * 31 + entry->first;
        sum = sum * 31 + entry->last;
        sum = sum * 31 + number_of(run, entry);
    }
    return sum;
}

int main(int argc, char **argv) {
    size_t steps = argc > 1 ? strtoull(argv[1], NULL, 10) : 1000;
    size_t width = argc > 2 ? strtoull(argv[2], NULL, 10) : 0;
    if (steps > MOST_STEPS || width > MOST_WORDS) return 2;
    const struct script *script = made_script(steps, width);
    struct timespec begun, end;
    clock_gettime(CLOCK_MONOTONIC, &begun);
    struct run *run = start(script);
    for (size_t i = 0; i < steps; i++) step(run, script->steps[i]);
    clock_gettime(CLOCK_MONOTONIC, &end);
    int64_t nanoseconds = (end.tv_sec - begun.tv_sec) * INT64_C(1000000000) + end.tv_nsec - begun.tv_nsec;
    fprintf(stderr, "steps %zu nanoseconds %" PRId64 " entries %zu sum %" PRIu64 "\n", steps, nanoseconds, run->length, sum_of(run));
}
