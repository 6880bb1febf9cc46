// A reader by the library jansson: it makes a tree of the whole text, which is walked. Its numbers
// are below 2^63. The tree is left to the end of the process, as all memory here is.
#include "reading.h"
#include <jansson.h>

static uint64_t number_of(const json_t *value) {
    if (!json_is_integer(value) || json_integer_value(value) < 0) refuse("no number");
    return (uint64_t)json_integer_value(value);
}

static size_t length_of(const json_t *list, size_t most) {
    if (!json_is_array(list)) refuse("no list");
    if (json_array_size(list) > most) refuse("a list too long");
    return json_array_size(list);
}

static uint64_t *numbers_of(const json_t *list, size_t length) {
    uint64_t *numbers = made(malloc((length + 1) * sizeof *numbers));
    for (size_t i = 0; i < length; i++) numbers[i] = number_of(json_array_get(list, i));
    return numbers;
}

static const uint64_t *words_of(const json_t *list) {
    return numbers_of(list, length_of(list, MOST_WORDS));
}

static struct arg arg_of(const json_t *value) {
    if (!json_is_array(value)) return (struct arg){.number = number_of(value)};
    if (json_array_size(value) != 2) refuse("no pair");
    return (struct arg){
        .is_of = 1,
        .thread = number_of(json_array_get(value, 0)),
        .index = number_of(json_array_get(value, 1)),
    };
}

static enum kind kind_of(const json_t *name) {
    if (!json_is_string(name)) refuse("no name");
    return kind_named(json_string_value(name), json_string_length(name));
}

static void check_length(const json_t *list, size_t length) {
    if (json_array_size(list) != length) refuse("no such call");
}

static struct script_call call_of(const json_t *list) {
    struct script_call call = {.kind = kind_of(json_array_get(list, 0))};
    switch (call.kind) {
    case VALIDATE: case UNLOCK_WRITE: case UNLOCK_READ: case UNLOCK:
    case TO_WRITE: case TO_READ: case TO_OPTIMISTIC:
        check_length(list, 2);
        call.stamp = arg_of(json_array_get(list, 1));
        break;
    case PUT_IF:
        check_length(list, 3);
        call.expected = words_of(json_array_get(list, 1));
        call.words = words_of(json_array_get(list, 2));
        break;
    case PUT:
        check_length(list, 2);
        call.words = words_of(json_array_get(list, 1));
        break;
    default: check_length(list, 1);
    }
    return call;
}

static struct calls calls_of(const json_t *list) {
    size_t length = length_of(list, MOST_CALLS);
    struct calls calls = {made(malloc((length + 1) * sizeof *calls.items)), length};
    for (size_t i = 0; i < length; i++) calls.items[i] = call_of(json_array_get(list, i));
    return calls;
}

static void threads_of(const json_t *list, struct script *script) {
    script->thread_count = length_of(list, MOST_THREADS);
    for (size_t i = 0; i < script->thread_count; i++)
        script->threads[i] = calls_of(json_array_get(list, i));
}

static struct script *script_of(json_t *object) {
    json_t *readers, *steps, *threads, *versions, *width;
    int fault = json_unpack_ex(object, NULL, JSON_STRICT, "{s:o, s:o, s:o, s:o, s:o}",
                               "readers", &readers, "steps", &steps, "threads", &threads,
                               "versions", &versions, "width", &width);
    if (fault) refuse("not a script");
    struct script *script = made(calloc(1, sizeof *script));
    script->limits = (struct limits){number_of(readers), number_of(versions)};
    script->width = number_of(width);
    threads_of(threads, script);
    script->step_count = length_of(steps, MOST_STEPS);
    script->steps = numbers_of(steps, script->step_count);
    return script;
}

static struct script *script_in(const char *bytes) {
    json_error_t error;
    json_t *object = json_loads(bytes, 0, &error);
    if (!object) refuse(error.text);
    struct script *script = script_of(object);
    check_steps(script);
    return script;
}
