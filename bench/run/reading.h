// What both readers of scripts share: the names of the calls, and refusals.
#include "machines.h"

static const char *const names[] = {
    "try_write", "try_read", "write_lock", "read_lock", "optimistic", "validate",
    "unlock_write", "unlock_read", "unlock", "to_write", "to_read", "to_optimistic",
    "try_unlock_write", "try_unlock_read", "is_write_locked", "is_read_locked", "read_count",
    "get", "put", "put_if",
};

static void refuse(const char *why) {
    fprintf(stderr, "run_script: %s\n", why);
    exit(1);
}

static enum kind kind_named(const char *name, size_t length) {
    for (size_t i = 0; i < sizeof names / sizeof *names; i++)
        if (strlen(names[i]) == length && memcmp(names[i], name, length) == 0) return (enum kind)i;
    refuse("no such call");
    abort();
}

// Refuses a script with a step by a thread that there isn't.
static void check_steps(const struct script *script) {
    for (size_t i = 0; i < script->step_count; i++)
        if (script->steps[i] >= script->thread_count) refuse("no such thread");
}
