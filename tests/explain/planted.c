// A lock that threads share, right or with a planted bug, whose run is observed:
//
//     planted right|upgrade|version|validate THREADS CALLS SEED [FROM]
//
// Each thread makes random calls, as the lock's documentation allows them, and keeps them on a tape of its
// own, each with a ticket taken before it and one taken after it. Threads are simulated: at each step of a call
// the seed says whether another thread goes on, and which. Now and then one stays away until others have made
// calls. So they meet however busy the machine is, and a run is the same each time. The observed history goes to
// standard output, as `stamped_explain` reads it. With FROM a stream goes there, by recorders/c, and the bug
// begins to show after so many calls; standard error has the number of events before the first wrong one. The
// bugs:
//
//     upgrade     a read mode becomes write mode beside other readers
//     version     a release of write mode doesn't count
//     validate    an optimistic read is always valid
#include "../../recorders/c/observed_lock.h"
#include "lock.h"
#include <string.h>
#include <ucontext.h>

// No more threads than may wait at once in a stream; of each the bytes of its stack, and for how many tickets it stays
// away.
enum { MOST_THREADS = OBSERVED_MAY_WAIT, STACK = 1 << 16, AWAY = 16, NAMES = READ_COUNT + 1 };

static const char *const names[NAMES] = {
    "try_write", "try_read", "write_lock", "read_lock", "optimistic", "validate",
    "unlock_write", "unlock_read", "unlock", "to_write", "to_read", "to_optimistic",
    "try_unlock_write", "try_unlock_read", "is_write_locked", "is_read_locked", "read_count"};
static const char *const answers[] = {"", "\"yes\"", "\"no\"", "\"done\"", "\"mismatch\""};

struct entry {
    struct call call;
    struct reply reply;
    uint64_t first, last;
};

struct tape {
    ucontext_t place; // where the thread goes on
    char *stack;
    struct entry *entries;
    uint64_t length, random;
    uint64_t held, optimistic; // the stamp of the mode that the thread holds, or 0
    uint64_t until;            // it stays away until so many tickets are taken
    uint64_t seen;             // the word at which its call waits, or 0
    int has_ended;
};

static const struct limits limits = {127, (UINT64_C(1) << 55) - 2};
static const char *bug;
static uint64_t calls;
static int threads;
static uint64_t word = VERSION, tickets;
static struct tape tapes[MOST_THREADS], *running;
static ucontext_t scheduler;
static uint64_t random_turns;
static struct observed run; // where a stream is written
static int is_streamed;
static uint64_t from;
static uint64_t first_wrong; // events so far, where the bug showed first

static int has(const char *name) { return strcmp(bug, name) == 0; }

static struct decision decide_wrong(uint64_t now, struct call call) {
    struct decision right = decide(limits, now, call);
    if (has("upgrade") && call.kind == TO_WRITE && holds_read(now, call.stamp))
        return gets(observed(now) + WRITER);
    if (has("version") && has_writer(now) && right.effect == CHANGE && right.word == now + WRITER) {
        right.word = now - WRITER;
        if (right.reply.answer == STAMP) right.reply.number = right.word;
    }
    if (has("validate") && call.kind == VALIDATE && call.stamp % WRITER == 0)
        return answer(YES);
    return right;
}

static struct decision decide_planted(uint64_t now, struct call call) {
    struct decision right = decide(limits, now, call), wrong = decide_wrong(now, call);
    uint64_t events = atomic_load(&run.tickets);
    if (!is_streamed) return wrong;
    if (events < 2 * from) return right;
    if (right.effect != wrong.effect || right.word != wrong.word || right.reply.answer != wrong.reply.answer)
        first_wrong = first_wrong ? first_wrong : events;
    return wrong;
}

static uint64_t drawn(uint64_t *random, uint64_t below) {
    *random = *random * UINT64_C(6364136223846793005) + 1442695040888963407;
    return (*random >> 33) % below;
}

static uint64_t taken(void) { return is_streamed ? atomic_load(&run.tickets) : tickets; }

static void stop(void) { swapcontext(&running->place, &scheduler); }

// Stands between two steps of a call: one time in four, another thread may go on.
static void step(void) {
    if (drawn(&random_turns, 4) == 0) stop();
}

static struct reply call_lock(struct call call) {
    for (;;) {
        uint64_t now = word;
        struct decision made = decide_planted(now, call);
        if (made.effect == ANSWER) return made.reply;
        if (made.effect == WAIT) {
            running->seen = now;
            stop();
            running->seen = 0;
            continue;
        }
        step();
        if (word == now) {
            word = made.word;
            return made.reply;
        }
    }
}

static struct reply stream(struct tape *tape, struct call call) {
    int has_stamp = call.kind >= VALIDATE && call.kind <= TO_OPTIMISTIC;
    int lane = observed_begin(&run, (enum observed_call)call.kind, has_stamp ? call.stamp : 0);
    step();
    struct reply made = call_lock(call);
    step();
    int is_number = made.answer == STAMP || made.answer == COUNT;
    observed_return(&run, lane, (enum observed_call)call.kind,
                    is_number ? made.number : made.answer == YES || made.answer == DONE);
    tape->length++;
    return made;
}

static struct reply record(struct tape *tape, enum kind kind, uint64_t stamp) {
    if (is_streamed) return stream(tape, (struct call){kind, stamp});
    struct entry *entry = &tape->entries[tape->length++];
    entry->call = (struct call){kind, stamp};
    entry->first = tickets++;
    step();
    entry->reply = call_lock(entry->call);
    step();
    entry->last = tickets++;
    return entry->reply;
}

static void call_free(struct tape *tape) {
    static const enum kind looks[] = {IS_WRITE_LOCKED, IS_READ_LOCKED, READ_COUNT, VALIDATE, VALIDATE};
    static const enum kind gets_mode[] = {TRY_WRITE, TRY_READ, WRITE_LOCK, READ_LOCK, READ_LOCK, TO_READ, TO_WRITE};
    uint64_t choice = drawn(&tape->random, 4);
    if (choice == 0 || tape->optimistic == 0)
        tape->optimistic = record(tape, OPTIMISTIC, 0).number;
    else if (choice == 1)
        record(tape, looks[drawn(&tape->random, 5)], tape->optimistic);
    else
        tape->held = record(tape, gets_mode[drawn(&tape->random, 7)], tape->optimistic).number;
}

static void call_held(struct tape *tape) {
    uint64_t held = tape->held;
    enum kind release = has_writer(held) ? UNLOCK_WRITE : UNLOCK_READ;
    tape->held = 0;
    switch (drawn(&tape->random, 6)) {
    case 0: record(tape, VALIDATE, held); tape->held = held; return;
    case 1: tape->held = record(tape, has_writer(held) ? TO_READ : TO_WRITE, held).number;
            if (tape->held == 0) tape->held = held;
            return;
    case 2: tape->optimistic = record(tape, TO_OPTIMISTIC, held).number; return;
    case 3: record(tape, has_writer(held) ? TRY_UNLOCK_WRITE : TRY_UNLOCK_READ, 0); return;
    case 4: record(tape, UNLOCK, held); return;
    default: record(tape, release, held);
    }
}

// One time in eight, stays where it is until the others have made some calls, or none of them can.
static void stay_away(struct tape *tape) {
    if (drawn(&tape->random, 8)) return;
    tape->until = taken() + AWAY;
    stop();
    tape->until = 0;
}

static void work(void) {
    struct tape *tape = running;
    while (tape->length < calls) {
        if (tape->held) call_held(tape);
        else call_free(tape);
        stay_away(tape);
        step();
    }
    if (tape->held) record(tape, UNLOCK, tape->held);
    tape->has_ended = 1;
}

static int may_go_on(const struct tape *tape) {
    return !tape->has_ended && tape->seen != word && tape->until <= taken();
}

// The next thread from a drawn one on that may go on; if there is none, one that stays away. NULL where all have ended
// or wait.
static struct tape *next(void) {
    uint64_t first = drawn(&random_turns, (uint64_t)threads);
    struct tape *away = NULL;
    for (int i = 0; i < threads; i++) {
        struct tape *tape = &tapes[(first + (uint64_t)i) % (uint64_t)threads];
        if (may_go_on(tape)) return tape;
        if (!tape->has_ended && tape->seen != word) away = tape;
    }
    return away;
}

static void start(struct tape *tape) {
    tape->stack = malloc(STACK);
    if (tape->stack == NULL || getcontext(&tape->place)) abort();
    tape->place.uc_stack.ss_sp = tape->stack;
    tape->place.uc_stack.ss_size = STACK;
    tape->place.uc_link = &scheduler;
    makecontext(&tape->place, work, 0);
}

static void print(const struct entry *entry, int thread, const char *between) {
    struct call call = entry->call;
    struct reply reply = entry->reply;
    printf("%s{\"call\":[\"%s\"", between, names[call.kind]);
    if (call.kind >= VALIDATE && call.kind <= TO_OPTIMISTIC) printf(",%" PRIu64, call.stamp);
    printf("],\"first\":%" PRIu64 ",\"last\":%" PRIu64 ",\"reply\":", entry->first, entry->last);
    if (reply.answer == STAMP) printf("%" PRIu64, reply.number);
    else if (reply.answer == COUNT) printf("{\"count\":%" PRIu64 "}", reply.number);
    else printf("%s", answers[reply.answer]);
    printf(",\"thread\":%d}", thread);
}

int main(int count, char **words) {
    if (count != 5 && count != 6) return 2;
    bug = words[1];
    threads = atoi(words[2]);
    if (threads < 1 || threads > MOST_THREADS) return 2;
    calls = strtoull(words[3], NULL, 10) / (uint64_t)threads - 1;
    is_streamed = count == 6;
    from = is_streamed ? strtoull(words[5], NULL, 10) : 0;
    random_turns = ~strtoull(words[4], NULL, 10);
    for (int i = 0; i < threads; i++) {
        tapes[i].random = strtoull(words[4], NULL, 10) + (uint64_t)i;
        tapes[i].entries = malloc(is_streamed ? 1 : (calls + 1) * sizeof *tapes[i].entries);
        if (tapes[i].entries == NULL) abort();
        start(&tapes[i]);
    }
    if (is_streamed && observed_start(&run, 1, 1, (unsigned)limits.readers, limits.versions)) abort();
    while ((running = next()) != NULL) swapcontext(&scheduler, &running->place);
    for (int i = 0; i < threads; i++)
        if (!tapes[i].has_ended) abort(); // it waits for ever
    if (is_streamed) {
        fprintf(stderr, "%" PRIu64 "\n", first_wrong);
        return observed_stop(&run) != 0;
    }
    printf("{\"entries\":[");
    for (int i = 0; i < threads; i++)
        for (uint64_t j = 0; j < tapes[i].length; j++) print(&tapes[i].entries[j], i, i || j ? "," : "");
    printf("],\"format\":1,\"readers\":%" PRIu64 ",\"versions\":%" PRIu64 ",\"width\":0}\n", limits.readers, limits.versions);
    return 0;
}
