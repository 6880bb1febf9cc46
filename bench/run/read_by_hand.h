// A reader written for just this form: a scanner that goes through the text once. It takes the
// scripts of make_script.py and the like: right ones, with the keys in any order.
#include "reading.h"

// The text that is left to read.
struct text {
    const char *at;
};

static int is_space(char c) { return c == ' ' || c == '\n' || c == '\t' || c == '\r'; }

static void skip(struct text *text) {
    while (is_space(*text->at)) text->at++;
}

static int has(struct text *text, char c) {
    skip(text);
    if (*text->at != c) return 0;
    text->at++;
    return 1;
}

static void want(struct text *text, char c) {
    if (!has(text, c)) refuse("not a script");
}

static uint64_t number(struct text *text) {
    skip(text);
    if (*text->at < '0' || *text->at > '9') refuse("no number");
    uint64_t made = 0;
    while (*text->at >= '0' && *text->at <= '9') made = 10 * made + (uint64_t)(*text->at++ - '0');
    return made;
}

// A list's items one after the other: `while (more(text, &count))` after its bracket.
static int more(struct text *text, size_t *count) {
    if (has(text, ']')) return 0;
    if ((*count)++) want(text, ',');
    return 1;
}

static const uint64_t *words_in(struct text *text) {
    uint64_t *words = made(malloc(MOST_WORDS * sizeof *words));
    size_t count = 0;
    want(text, '[');
    while (more(text, &count)) {
        if (count > MOST_WORDS) refuse("too many words");
        words[count - 1] = number(text);
    }
    return words;
}

static struct arg arg_in(struct text *text) {
    if (!has(text, '[')) return (struct arg){.number = number(text)};
    struct arg arg = {.is_of = 1, .thread = number(text)};
    want(text, ',');
    arg.index = number(text);
    want(text, ']');
    return arg;
}

static size_t name_in(struct text *text, const char **begin) {
    want(text, '"');
    *begin = text->at;
    while (*text->at && *text->at != '"') text->at++;
    size_t length = (size_t)(text->at - *begin);
    want(text, '"');
    return length;
}

static enum kind kind_in(struct text *text) {
    const char *begin;
    size_t length = name_in(text, &begin);
    return kind_named(begin, length);
}

static struct script_call call_in(struct text *text) {
    want(text, '[');
    struct script_call call = {.kind = kind_in(text)};
    switch (call.kind) {
    case VALIDATE: case UNLOCK_WRITE: case UNLOCK_READ: case UNLOCK:
    case TO_WRITE: case TO_READ: case TO_OPTIMISTIC:
        want(text, ',');
        call.stamp = arg_in(text);
        break;
    case PUT_IF:
        want(text, ',');
        call.expected = words_in(text); // fall through
    case PUT:
        want(text, ',');
        call.words = words_in(text);
        break;
    default: break;
    }
    want(text, ']');
    return call;
}

static struct calls calls_in(struct text *text) {
    struct calls calls = {made(malloc(MOST_CALLS * sizeof *calls.items)), 0};
    want(text, '[');
    while (more(text, &calls.length)) {
        if (calls.length > MOST_CALLS) refuse("too many calls");
        calls.items[calls.length - 1] = call_in(text);
    }
    return calls;
}

static void threads_in(struct text *text, struct script *script) {
    want(text, '[');
    while (more(text, &script->thread_count)) {
        if (script->thread_count > MOST_THREADS) refuse("too many threads");
        script->threads[script->thread_count - 1] = calls_in(text);
    }
}

static void steps_in(struct text *text, struct script *script) {
    script->steps = made(malloc(MOST_STEPS * sizeof *script->steps));
    want(text, '[');
    while (more(text, &script->step_count)) {
        if (script->step_count > MOST_STEPS) refuse("too many steps");
        script->steps[script->step_count - 1] = number(text);
    }
}

static int is_key(const char *key, const char *begin, size_t length) {
    return strlen(key) == length && memcmp(key, begin, length) == 0;
}

static void field_in(struct text *text, struct script *script) {
    const char *begin;
    size_t length = name_in(text, &begin);
    want(text, ':');
    if (is_key("threads", begin, length)) threads_in(text, script);
    else if (is_key("steps", begin, length)) steps_in(text, script);
    else if (is_key("width", begin, length)) script->width = number(text);
    else if (is_key("readers", begin, length)) script->limits.readers = number(text);
    else if (is_key("versions", begin, length)) script->limits.versions = number(text);
    else refuse("no such key");
}

static struct script *script_in(const char *bytes) {
    struct script *script = made(calloc(1, sizeof *script));
    struct text text = {bytes};
    want(&text, '{');
    for (size_t count = 0; !has(&text, '}'); count++) {
        if (count) want(&text, ',');
        field_in(&text, script);
    }
    check_steps(script);
    return script;
}
