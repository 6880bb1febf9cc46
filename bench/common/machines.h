// Calls of the lock and of its record as machines that make one access a step, and scripts of such
// calls under a schedule.
#include "lock.h"
#include <string.h>

enum { MOST_WORDS = 16, MOST_THREADS = 64, MOST_CALLS = 10000, MOST_STEPS = 1000000 };

// A stamp argument: a number, or what a thread's call of this index answered.
struct arg {
    int is_of;
    uint64_t number, thread, index;
};

struct script_call {
    enum kind kind;
    struct arg stamp;
    const uint64_t *expected, *words; // of a put, and of a conditional one
};

struct calls {
    struct script_call *items;
    size_t length;
};

struct script {
    struct limits limits;
    size_t width, thread_count, step_count;
    struct calls threads[MOST_THREADS];
    uint64_t *steps;
};

// Where a call stands between two of its accesses. From SHARING on a lock phase is named for what
// its end leads to.
enum stage {
    PUBLIC, GLANCING, COPYING, READING, CHECKING, STORING, RELEASING,
    SHARING, LEAVING, REFUSING, UPGRADING, RETREATING, CLAIMING,
};

struct machine {
    enum stage stage;
    enum kind kind;
    uint64_t stamp; // the call's own, and then that of the record's lock
    const uint64_t *expected, *words;
    struct call call; // of a lock phase
    int is_trying;    // the word `old` was seen, and is to become `new`
    uint64_t old, new;
    struct reply reply;
    uint64_t first; // the word that was seen before words were copied
    size_t done;
    uint64_t loaded[MOST_WORDS];
};

struct entry {
    uint64_t thread, first, last;
    struct call call;
    struct reply reply;
    const uint64_t *expected, *words; // of the call
    const uint64_t *content;          // of the reply
};

struct meter {
    uint64_t steps, before;
};

struct thread {
    int is_busy;
    struct machine machine;
    uint64_t stamp; // the call's, as it was resolved
    uint64_t first;
    uint64_t *stamps;
    size_t finished;
    struct meter meter;
};

struct run {
    const struct script *script;
    uint64_t words[2 + MOST_WORDS];
    struct thread threads[MOST_THREADS];
    struct entry *entries;
    struct meter *report; // its own steps, and the changes by others
    size_t length, room, position;
    uint64_t *pool; // where contents are kept
    size_t pooled;
    uint64_t changes;
};

static void *made(void *memory) {
    if (!memory) abort();
    return memory;
}

// Keeps a content for good.
static const uint64_t *kept(struct run *run, const uint64_t *words) {
    enum { MANY = 1 << 16 };
    size_t width = run->script->width;
    if (!run->pool || run->pooled + width > MANY) {
        run->pool = made(malloc(MANY * sizeof *run->pool));
        run->pooled = 0;
    }
    uint64_t *place = run->pool + run->pooled;
    run->pooled += width;
    return memcpy(place, words, width * sizeof *words);
}

static void lock_phase(struct machine *m, enum stage stage, enum kind kind, uint64_t stamp) {
    m->stage = stage;
    m->call = (struct call){kind, stamp};
    m->is_trying = 0;
}

static uint64_t number_of_arg(const struct run *run, struct arg arg) {
    if (!arg.is_of) return arg.number;
    if (arg.thread >= run->script->thread_count) return 0;
    const struct thread *thread = &run->threads[arg.thread];
    return arg.index < thread->finished ? thread->stamps[arg.index] : 0;
}

static void begin(const struct run *run, struct thread *thread, const struct script_call *call) {
    struct machine *m = &thread->machine;
    m->kind = call->kind;
    m->expected = call->expected;
    m->words = call->words;
    thread->stamp = number_of_arg(run, call->stamp);
    switch (call->kind) {
    case GET: m->stage = GLANCING; break;
    case PUT: lock_phase(m, CLAIMING, WRITE_LOCK, 0); break;
    case PUT_IF: lock_phase(m, SHARING, READ_LOCK, 0); break;
    default: lock_phase(m, PUBLIC, call->kind, thread->stamp);
    }
}

// The answer of a call that has ended.
struct ending {
    int is_ended;
    struct reply reply;
    const uint64_t *content;
};

static const struct ending going = {0, {NO, 0}, NULL};

static struct ending ends(enum answer answer) {
    return (struct ending){1, {answer, 0}, NULL};
}

static struct ending answers(struct run *run, const uint64_t *content) {
    return (struct ending){1, {CONTENT, 0}, kept(run, content)};
}

static void goes_on(struct machine *m, enum stage stage) {
    m->stage = stage;
    m->done = 0;
}

static int is_same(const struct run *run, const uint64_t *words, const uint64_t *others) {
    return memcmp(words, others, run->script->width * sizeof *words) == 0;
}

// The words are read under a read lock.
static void all_read(const struct run *run, struct machine *m) {
    if (m->kind == GET)
        lock_phase(m, LEAVING, UNLOCK_READ, m->stamp);
    else if (is_same(run, m->loaded, m->expected))
        lock_phase(m, UPGRADING, TO_WRITE, m->stamp);
    else
        lock_phase(m, REFUSING, UNLOCK_READ, m->stamp);
}

// A lock phase has ended with this reply.
static struct ending ended(struct run *run, struct machine *m, struct reply reply) {
    uint64_t got = reply.answer == STAMP ? reply.number : 0;
    switch (m->stage) {
    case PUBLIC: return (struct ending){1, reply, NULL};
    case SHARING: m->stamp = got; goes_on(m, READING); return going;
    case LEAVING: return answers(run, m->loaded);
    case REFUSING: return ends(NO);
    case UPGRADING:
        if (got == 0) {
            lock_phase(m, RETREATING, UNLOCK_READ, m->stamp);
        } else {
            m->stamp = got;
            goes_on(m, STORING);
        }
        return going;
    case RETREATING: lock_phase(m, CLAIMING, WRITE_LOCK, 0); return going;
    case CLAIMING:
        m->stamp = got;
        goes_on(m, m->kind == PUT_IF ? CHECKING : STORING);
        return going;
    default: abort();
    }
}

// One access of a lock phase to the word at `at`.
static struct ending lock_step(struct run *run, struct machine *m, struct limits limits, size_t at) {
    uint64_t found = run->words[at];
    if (m->is_trying && found == m->old) {
        run->words[at] = m->new;
        return ended(run, m, m->reply);
    }
    struct decision decision = decide(limits, found, m->call);
    switch (decision.effect) {
    case ANSWER: return ended(run, m, decision.reply);
    case CHANGE:
        m->is_trying = 1;
        m->old = found;
        m->new = decision.word;
        m->reply = decision.reply;
        return going;
    case WAIT: m->is_trying = 0; return going;
    }
    abort();
}

static struct ending step_of(struct run *run, struct machine *m) {
    static const struct limits widest = {127, (UINT64_C(1) << 55) - 2};
    size_t width = run->script->width;
    uint64_t *record = run->words + 2;
    switch (m->stage) {
    case PUBLIC: return lock_step(run, m, run->script->limits, 0);
    case GLANCING:
        m->first = run->words[1];
        if (has_writer(m->first))
            lock_phase(m, SHARING, READ_LOCK, 0);
        else
            goes_on(m, COPYING);
        return going;
    case COPYING:
        if (m->done < width) {
            m->loaded[m->done] = record[m->done];
            m->done++;
            return going;
        }
        if (!has_writer(run->words[1]) && version(run->words[1]) == version(m->first))
            return answers(run, m->loaded);
        lock_phase(m, SHARING, READ_LOCK, 0);
        return going;
    case READING:
        m->loaded[m->done] = record[m->done];
        if (++m->done == width) all_read(run, m);
        return going;
    case CHECKING:
        m->loaded[m->done] = record[m->done];
        if (++m->done < width) return going;
        if (is_same(run, m->loaded, m->expected)) {
            goes_on(m, STORING);
        } else {
            m->stage = RELEASING;
            m->reply = (struct reply){NO, 0};
        }
        return going;
    case STORING:
        record[m->done] = m->words[m->done];
        if (++m->done == width) {
            m->stage = RELEASING;
            m->reply = (struct reply){m->kind == PUT_IF ? YES : DONE, 0};
        }
        return going;
    case RELEASING:
        if (run->words[1] == m->stamp) run->words[1] = m->stamp + WRITER;
        return ends(m->reply.answer);
    default: return lock_step(run, m, widest, 1);
    }
}

// Makes room for one more entry.
static void reserve(struct run *run) {
    if (run->length < run->room) return;
    run->room = run->room ? 2 * run->room : 64;
    run->entries = made(realloc(run->entries, run->room * sizeof *run->entries));
}

static void finish(struct run *run, uint64_t by, const struct ending *ending) {
    struct thread *thread = &run->threads[by];
    struct machine *m = &thread->machine;
    run->entries[run->length++] = (struct entry){
        .thread = by, .first = thread->first, .last = run->position,
        .call = {m->kind, thread->stamp}, .reply = ending->reply,
        .expected = m->expected, .words = m->words, .content = ending->content,
    };
    thread->stamps[thread->finished++] = ending->reply.answer == STAMP ? ending->reply.number : 0;
    thread->is_busy = 0;
}

// Makes one access of the thread's current call, if it has one left. Says whether it had.
static int step(struct run *run, uint64_t by) {
    struct thread *thread = &run->threads[by];
    const struct calls *calls = &run->script->threads[by];
    if (!thread->is_busy && thread->finished == calls->length) {
        run->position++;
        return 0;
    }
    reserve(run);
    if (!thread->is_busy) {
        begin(run, thread, &calls->items[thread->finished]);
        thread->first = run->position;
        thread->is_busy = 1;
    }
    struct ending ending = step_of(run, &thread->machine);
    if (ending.is_ended) finish(run, by, &ending);
    run->position++;
    return 1;
}

static struct run *start(const struct script *script) {
    struct run *run = made(calloc(1, sizeof *run));
    run->script = script;
    run->words[0] = run->words[1] = VERSION;
    for (size_t i = 0; i < script->thread_count; i++)
        run->threads[i].stamps = made(malloc((script->threads[i].length + 1) * sizeof(uint64_t)));
    return run;
}

// One access, which is counted: an entry's own steps, and the changes of the lock's word by others.
static void step_counted(struct run *run, uint64_t by) {
    struct meter *meter = &run->threads[by].meter;
    size_t room = run->room, length = run->length;
    uint64_t before = run->words[0];
    if (!step(run, by)) return;
    if (!run->report || run->room != room)
        run->report = made(realloc(run->report, run->room * sizeof *run->report));
    uint64_t change = run->words[0] != before;
    if (meter->steps == 0) meter->before = run->changes;
    meter->steps++;
    meter->before += change;
    run->changes += change;
    if (run->length == length) return;
    run->report[length] = (struct meter){meter->steps, run->changes - meter->before};
    meter->steps = 0;
}
