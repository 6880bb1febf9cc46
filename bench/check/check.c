// Checks a record of calls in one walk, as `check` does, in C: entries of the same size, the same
// calls, each with its reply. `check [CALLS [WALKS [WIDTH]]]` writes one line to standard error.
#include "lock.h"
#include <string.h>
#include <time.h>

enum { THREADS = 64, MOST_WIDTH = 16, LOCK_TURNS = 20, ALL_TURNS = 24 };

struct words {
    uint64_t length, word[MOST_WIDTH];
};

struct entry_call {
    enum kind kind;
    union {
        uint64_t stamp;
        struct words words[2];
    };
};

struct entry_reply {
    enum answer answer;
    union {
        uint64_t number;
        struct words words;
    };
};

struct entry {
    uint64_t thread;
    struct entry_call call;
    struct entry_reply reply;
    uint64_t first, point, last;
};

struct record {
    struct limits limits;
    uint64_t width, length;
    struct entry *entries;
};

enum why { NONE, INTERVAL, ORDER, OVERLAP, REPLY };

// A position, if there is one so far.
struct position {
    int some;
    uint64_t at;
};

struct walk {
    uint64_t word;
    struct words content;
    struct position point, lasts[THREADS];
};

static int is_above(struct position before, uint64_t n) { return !before.some || before.at < n; }

static int same_words(const struct words *a, const struct words *b) {
    return a->length == b->length && memcmp(a->word, b->word, 8 * a->length) == 0;
}

static int same_reply(struct reply made, const struct entry_reply *told) {
    if (made.answer != told->answer) return 0;
    return (made.answer != STAMP && made.answer != COUNT) || made.number == told->number;
}

static int lock_goes_on(struct walk *walk, struct limits limits, const struct entry *entry) {
    struct call call = {entry->call.kind, entry->call.stamp};
    struct decision made = decide(limits, walk->word, call);
    if (made.effect == WAIT || !same_reply(made.reply, &entry->reply)) return 0;
    if (made.effect == CHANGE) walk->word = made.word;
    return 1;
}

static int record_goes_on(struct walk *walk, const struct entry *entry) {
    const struct words *words = entry->call.words;
    const struct entry_reply *reply = &entry->reply;
    switch (entry->call.kind) {
    case GET:
        return reply->answer == CONTENT && same_words(&reply->words, &walk->content);
    case PUT:
        if (reply->answer != DONE) return 0;
        walk->content = words[0];
        return 1;
    default:
        if (!same_words(&walk->content, &words[0])) return reply->answer == NO;
        if (reply->answer != YES) return 0;
        walk->content = words[1];
        return 1;
    }
}

static enum why advance(struct walk *walk, struct limits limits, const struct entry *entry) {
    if (entry->first > entry->point || entry->point > entry->last) return INTERVAL;
    if (!is_above(walk->point, entry->point)) return ORDER;
    struct position *last = &walk->lasts[entry->thread];
    if (!is_above(*last, entry->first)) return OVERLAP;
    int goes_on = entry->call.kind < GET ? lock_goes_on(walk, limits, entry)
                                         : record_goes_on(walk, entry);
    if (!goes_on) return REPLY;
    walk->point = (struct position){1, entry->point};
    *last = (struct position){1, entry->last};
    return NONE;
}

// The number of the entries, or that of the first fault.
static uint64_t check(const struct record *record, enum why *why) {
    struct walk walk = {VERSION, {record->width, {0}}, {0, 0}, {{0, 0}}};
    for (uint64_t i = 0; i < record->length; i++) {
        *why = advance(&walk, record->limits, &record->entries[i]);
        if (*why != NONE) return i;
    }
    return record->length;
}

static const enum kind cycle[ALL_TURNS] = {
    OPTIMISTIC, VALIDATE, TRY_READ, READ_LOCK, IS_READ_LOCKED, UNLOCK_READ, READ_COUNT,
    TO_WRITE, IS_WRITE_LOCKED, TO_READ, TO_OPTIMISTIC,
    WRITE_LOCK, VALIDATE, UNLOCK_WRITE, TRY_WRITE, UNLOCK,
    TRY_READ, TRY_UNLOCK_READ, TRY_UNLOCK_WRITE, UNLOCK_WRITE,
    PUT, GET, PUT_IF, PUT_IF,
};

// Where lock and record are: the stamp answered last, and the number in each word of the content.
struct at {
    uint64_t word, stamp, number;
};

static struct words all_of(uint64_t width, uint64_t number) {
    struct words words = {width, {0}};
    for (uint64_t i = 0; i < width; i++) words.word[i] = number;
    return words;
}

static int answer_lock(struct at *at, struct limits limits, struct entry *entry) {
    entry->call.stamp = at->stamp;
    struct decision made = decide(limits, at->word, (struct call){entry->call.kind, at->stamp});
    if (made.effect == WAIT) return 0;
    if (made.effect == CHANGE) at->word = made.word;
    if (made.reply.answer == STAMP) at->stamp = made.reply.number;
    entry->reply.answer = made.reply.answer;
    entry->reply.number = made.reply.number;
    return 1;
}

static void answer_record(struct at *at, uint64_t width, int is_last, struct entry *entry) {
    struct words held = all_of(width, at->number), next = all_of(width, at->number + 1);
    if (entry->call.kind == GET) {
        entry->reply.answer = CONTENT;
        entry->reply.words = held;
        return;
    }
    entry->call.words[0] = entry->call.kind == PUT || is_last ? next : held;
    entry->call.words[1] = is_last ? held : next;
    entry->reply.answer = entry->call.kind == PUT ? DONE : is_last ? NO : YES;
    if (!is_last) at->number++;
}

static struct record record_of(struct limits limits, uint64_t width, uint64_t calls) {
    struct record record = {limits, width, 0, calloc(calls + 1, sizeof(struct entry))};
    struct at at = {VERSION, 0, 0};
    if (!record.entries) abort();
    for (uint64_t i = 0; i < calls; i++) {
        uint64_t turn = i % (width ? ALL_TURNS : LOCK_TURNS);
        struct entry *entry = &record.entries[record.length];
        entry->thread = i % THREADS;
        entry->call.kind = cycle[turn];
        entry->first = 3 * i, entry->point = 3 * i + 1, entry->last = 3 * i + 2;
        if (turn >= LOCK_TURNS) answer_record(&at, width, turn == ALL_TURNS - 1, entry);
        else if (!answer_lock(&at, limits, entry)) continue;
        record.length++;
    }
    return record;
}

static uint64_t argument(int argc, char **argv, int i, uint64_t other) {
    return argc > i ? strtoull(argv[i], NULL, 10) : other;
}

int main(int argc, char **argv) {
    uint64_t calls = argument(argc, argv, 1, 1000), walks = argument(argc, argv, 2, 1);
    struct limits limits = {127, 1000000000};
    struct record record = record_of(limits, argument(argc, argv, 3, 0), calls);
    uint64_t sum = 0;
    struct timespec start, end;
    clock_gettime(CLOCK_MONOTONIC, &start);
    for (uint64_t i = 0; i < walks; i++) {
        enum why why;
        __asm__ volatile("" ::: "memory"); // each walk reads the entries anew
        sum += check(&record, &why);
    }
    clock_gettime(CLOCK_MONOTONIC, &end);
    int64_t nanoseconds = (end.tv_sec - start.tv_sec) * INT64_C(1000000000) + end.tv_nsec - start.tv_nsec;
    fprintf(stderr, "entries %" PRIu64 " nanoseconds %" PRId64 "\n", sum, nanoseconds);
}
