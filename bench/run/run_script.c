// Runs a script as `stamped run` does: run_script [--report] < SCRIPT. It reads by a scanner for
// just this form or, built with -DJANSSON, by the library jansson.
#ifdef JANSSON
#include "read_by_jansson.h"
#else
#include "read_by_hand.h"
#endif

static char *input(void) {
    size_t length = 0, room = 1 << 16;
    char *bytes = made(malloc(room));
    for (size_t got; (got = fread(bytes + length, 1, room - length - 1, stdin)) > 0;) {
        length += got;
        if (length + 1 == room) bytes = made(realloc(bytes, room *= 2));
    }
    bytes[length] = 0;
    return bytes;
}

// The text that is written so far.
struct output {
    char *bytes;
    size_t length, room;
};

static char *room_for(struct output *out, size_t count) {
    if (out->length + count > out->room) {
        out->room = 2 * out->room + count + (1 << 16);
        out->bytes = made(realloc(out->bytes, out->room));
    }
    return out->bytes + out->length;
}

static void put_text(struct output *out, const char *text) {
    size_t length = strlen(text);
    memcpy(room_for(out, length), text, length);
    out->length += length;
}

static void put_number(struct output *out, uint64_t number) {
    char digits[20];
    size_t at = sizeof digits;
    do digits[--at] = (char)('0' + number % 10);
    while (number /= 10);
    memcpy(room_for(out, sizeof digits), digits + at, sizeof digits - at);
    out->length += sizeof digits - at;
}

static void put_words(struct output *out, const uint64_t *words, size_t width) {
    put_text(out, "[");
    for (size_t i = 0; i < width; i++) {
        if (i) put_text(out, ",");
        put_number(out, words[i]);
    }
    put_text(out, "]");
}

static void put_call(struct output *out, const struct entry *entry, size_t width) {
    put_text(out, "{\"call\":[\"");
    put_text(out, names[entry->call.kind]);
    put_text(out, "\"");
    switch (entry->call.kind) {
    case VALIDATE: case UNLOCK_WRITE: case UNLOCK_READ: case UNLOCK:
    case TO_WRITE: case TO_READ: case TO_OPTIMISTIC:
        put_text(out, ",");
        put_number(out, entry->call.stamp);
        break;
    case PUT_IF:
        put_text(out, ",");
        put_words(out, entry->expected, width); // fall through
    case PUT:
        put_text(out, ",");
        put_words(out, entry->words, width);
        break;
    default: break;
    }
    put_text(out, "]");
}

static void put_reply(struct output *out, const struct entry *entry, size_t width) {
    switch (entry->reply.answer) {
    case STAMP: put_number(out, entry->reply.number); break;
    case YES: put_text(out, "\"yes\""); break;
    case NO: put_text(out, "\"no\""); break;
    case DONE: put_text(out, "\"done\""); break;
    case MISMATCH: put_text(out, "\"mismatch\""); break;
    case COUNT:
        put_text(out, "{\"count\":");
        put_number(out, entry->reply.number);
        put_text(out, "}");
        break;
    case CONTENT: put_words(out, entry->content, width); break;
    }
}

static void put_entry(struct output *out, const struct entry *entry, size_t width) {
    put_call(out, entry, width);
    put_text(out, ",\"first\":");
    put_number(out, entry->first);
    put_text(out, ",\"last\":");
    put_number(out, entry->last);
    put_text(out, ",\"point\":");
    put_number(out, entry->last);
    put_text(out, ",\"reply\":");
    put_reply(out, entry, width);
    put_text(out, ",\"thread\":");
    put_number(out, entry->thread);
    put_text(out, "}");
}

static void put_report(struct output *out, const struct run *run) {
    put_text(out, ",\"report\":[");
    for (size_t i = 0; i < run->length; i++) {
        put_text(out, i ? ",[" : "[");
        put_number(out, run->report[i].steps);
        put_text(out, ",");
        put_number(out, run->report[i].before);
        put_text(out, "]");
    }
    put_text(out, "]");
}

static void put_history(struct output *out, const struct run *run, int is_reported) {
    const struct script *script = run->script;
    put_text(out, "{\"entries\":[");
    for (size_t i = 0; i < run->length; i++) {
        if (i) put_text(out, ",");
        put_entry(out, &run->entries[i], script->width);
    }
    put_text(out, "],\"format\":1,\"readers\":");
    put_number(out, script->limits.readers);
    if (is_reported && run->length > 0) put_report(out, run);
    put_text(out, ",\"versions\":");
    put_number(out, script->limits.versions);
    put_text(out, ",\"width\":");
    put_number(out, script->width);
    put_text(out, "}\n");
}

int main(int argc, char **argv) {
    int is_reported = argc > 1 && strcmp(argv[1], "--report") == 0;
    const struct script *script = script_in(input());
    struct run *run = start(script);
    for (size_t i = 0; i < script->step_count; i++) {
        if (is_reported) step_counted(run, script->steps[i]);
        else step(run, script->steps[i]);
    }
    struct output out = {NULL, 0, 0};
    put_history(&out, run, is_reported);
    if (fwrite(out.bytes, 1, out.length, stdout) != out.length) refuse("write fault");
}
