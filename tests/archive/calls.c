/* Calls the functions of the static library. Each line of standard input is a letter and numbers; for
   each one line is printed:

     o LAYOUT                               the opening word
     l LAYOUT READERS VERSIONS              the error of the limits
     w LAYOUT READERS VERSIONS WORD         the error of the word
     d LAYOUT READERS VERSIONS WORD CALL STAMP    word and reply
     k LAYOUT STAMP                         kind, version and readers
     c                                      the header's constants, as NAME=VALUE */
#include "stamped.h"
#include <inttypes.h>
#include <stddef.h>
#include <stdio.h>

_Static_assert(sizeof(struct stamped_limits) == 16 && offsetof(struct stamped_limits, readers) == 4 &&
               offsetof(struct stamped_limits, versions) == 8, "struct stamped_limits");
_Static_assert(sizeof(struct stamped_decision) == 16 && offsetof(struct stamped_decision, reply) == 8,
               "struct stamped_decision");
_Static_assert(sizeof(struct stamped_kind) == 24 && offsetof(struct stamped_kind, version) == 8 &&
               offsetof(struct stamped_kind, readers) == 16, "struct stamped_kind");

#define CONSTANT(name) {#name, name}

static const struct {
    const char *name;
    uint64_t value;
} constants[] = {
    CONSTANT(STAMPED_OK), CONSTANT(STAMPED_UNKNOWN_LAYOUT), CONSTANT(STAMPED_LIMITS_OUT_OF_RANGE),
    CONSTANT(STAMPED_NO_WORD), CONSTANT(STAMPED_BEYOND_LIMITS), CONSTANT(STAMPED_UNKNOWN_CALL),
    CONSTANT(STAMPED_READERS_1), CONSTANT(STAMPED_VERSIONS_1), CONSTANT(STAMPED_READERS_2),
    CONSTANT(STAMPED_VERSIONS_2), CONSTANT(STAMPED_TRY_WRITE), CONSTANT(STAMPED_TRY_READ),
    CONSTANT(STAMPED_WRITE_LOCK), CONSTANT(STAMPED_READ_LOCK), CONSTANT(STAMPED_OPTIMISTIC),
    CONSTANT(STAMPED_VALIDATE), CONSTANT(STAMPED_UNLOCK_WRITE), CONSTANT(STAMPED_UNLOCK_READ),
    CONSTANT(STAMPED_UNLOCK), CONSTANT(STAMPED_TO_WRITE), CONSTANT(STAMPED_TO_READ),
    CONSTANT(STAMPED_TO_OPTIMISTIC), CONSTANT(STAMPED_TRY_UNLOCK_WRITE), CONSTANT(STAMPED_TRY_UNLOCK_READ),
    CONSTANT(STAMPED_IS_WRITE_LOCKED), CONSTANT(STAMPED_IS_READ_LOCKED), CONSTANT(STAMPED_READ_COUNT),
    CONSTANT(STAMPED_LEAST_WORD), CONSTANT(STAMPED_WAIT), CONSTANT(STAMPED_NO), CONSTANT(STAMPED_YES),
    CONSTANT(STAMPED_MISMATCH), CONSTANT(STAMPED_DONE), CONSTANT(STAMPED_NEITHER),
    CONSTANT(STAMPED_WRITE_STAMP), CONSTANT(STAMPED_READ_STAMP), CONSTANT(STAMPED_OPTIMISTIC_STAMP),
};

static struct stamped_limits limits;

static int print_constants(void) {
    for (size_t i = 0; i < sizeof constants / sizeof *constants; i++) {
        printf("%s=%" PRIu64 " ", constants[i].name, constants[i].value);
    }
    return puts("") >= 0;
}

static int take_limits(void) {
    return scanf("%" SCNu32 " %" SCNu32 " %" SCNu64, &limits.layout, &limits.readers, &limits.versions) == 3;
}

static int decide(void) {
    uint64_t word, stamp;
    uint32_t call;
    if (!take_limits() || scanf("%" SCNu64 " %" SCNu32 " %" SCNu64, &word, &call, &stamp) != 3) return 0;
    struct stamped_decision made = stamped_decide(limits, word, call, stamp);
    printf("%" PRIu64 " %" PRIu64 "\n", made.word, made.reply);
    return 1;
}

static int kind_of(void) {
    uint32_t layout;
    uint64_t stamp;
    if (scanf("%" SCNu32 " %" SCNu64, &layout, &stamp) != 2) return 0;
    struct stamped_kind kind = stamped_kind_of(layout, stamp);
    printf("%" PRIu32 " %" PRIu64 " %" PRIu64 "\n", kind.kind, kind.version, kind.readers);
    return 1;
}

static int take(char letter) {
    uint32_t layout;
    uint64_t word;
    switch (letter) {
    case 'o':
        if (scanf("%" SCNu32, &layout) != 1) return 0;
        return printf("%" PRIu64 "\n", stamped_opening(layout)) > 0;
    case 'l':
        return take_limits() && printf("%" PRIu32 "\n", stamped_check_limits(limits)) > 0;
    case 'w':
        if (!take_limits() || scanf("%" SCNu64, &word) != 1) return 0;
        return printf("%" PRIu32 "\n", stamped_check_word(limits, word)) > 0;
    case 'd':
        return decide();
    case 'k':
        return kind_of();
    case 'c':
        return print_constants();
    default:
        return 0;
    }
}

int main(void) {
    char letter;
    while (scanf(" %c", &letter) == 1) {
        if (!take(letter)) return 1;
        fflush(stdout);
    }
    return 0;
}
