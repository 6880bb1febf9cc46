"""The calls of the lock on its word, as plain functions. Words and stamps are those of layout 1."""

VERSION, WRITER = 256, 128


def holders(word):
    return word % VERSION


def has_writer(word):
    return holders(word) == WRITER


def readers_of(word):
    return 0 if has_writer(word) else holders(word)


def observed(word):
    return word - holders(word)


def version(word):
    return word // VERSION if has_writer(word) else word // VERSION - 1


def may_write(limits, word):
    return holders(word) == 0 and version(word) < limits[1]


def may_read(limits, word):
    return holders(word) < limits[0]


def holds_write(word, stamp):
    return stamp == word and has_writer(word)


def holds_read(word, stamp):
    return readers_of(word) > 0 and observed(word) < stamp < observed(word) + WRITER


def validates(word, stamp):
    if has_writer(word):
        return stamp == word
    seen = observed(word)
    return seen <= stamp < seen + WRITER or (version(word) > 0 and stamp == seen - WRITER)


# A decision is the new word, or None where it stays, and the reply; None where the call waits.
def gets(word):
    return word, word


def try_write(limits, word, _):
    return gets(word + WRITER) if may_write(limits, word) else (None, 0)


def try_read(limits, word, _):
    return gets(word + 1) if may_read(limits, word) else (None, 0)


def write_lock(limits, word, _):
    if version(word) == limits[1]:
        return None, 0
    return gets(word + WRITER) if may_write(limits, word) else None


def read_lock(limits, word, _):
    return gets(word + 1) if may_read(limits, word) else None


def optimistic(limits, word, _):
    return None, 0 if has_writer(word) else observed(word)


def validate(limits, word, stamp):
    return None, "yes" if validates(word, stamp) else "no"


def unlock_write(limits, word, stamp):
    return (word + WRITER, "done") if holds_write(word, stamp) else (None, "mismatch")


def unlock_read(limits, word, stamp):
    return (word - 1, "done") if holds_read(word, stamp) else (None, "mismatch")


def unlock(limits, word, stamp):
    if holds_write(word, stamp):
        return word + WRITER, "done"
    return unlock_read(limits, word, stamp)


def to_write(limits, word, stamp):
    if holds_write(word, stamp):
        return None, stamp
    if holds_read(word, stamp) and readers_of(word) == 1 and version(word) < limits[1]:
        return gets(word - 1 + WRITER)
    return gets(word + WRITER) if may_write(limits, word) and stamp == word else (None, 0)


def to_read(limits, word, stamp):
    if holds_write(word, stamp):
        return gets(word + WRITER + 1)
    if holds_read(word, stamp):
        return None, stamp
    return gets(word + 1) if may_read(limits, word) and stamp == observed(word) else (None, 0)


def to_optimistic(limits, word, stamp):
    if holds_write(word, stamp):
        return gets(word + WRITER)
    if holds_read(word, stamp):
        return word - 1, observed(word)
    return None, stamp if not has_writer(word) and stamp == observed(word) else 0


def try_unlock_write(limits, word, _):
    return (word + WRITER, "yes") if has_writer(word) else (None, "no")


def try_unlock_read(limits, word, _):
    return (word - 1, "yes") if readers_of(word) > 0 else (None, "no")


def is_write_locked(limits, word, _):
    return None, "yes" if has_writer(word) else "no"


def is_read_locked(limits, word, _):
    return None, "yes" if readers_of(word) > 0 else "no"


def read_count(limits, word, _):
    return None, {"count": readers_of(word)}


TABLE = {row.__name__: row for row in (
    try_write, try_read, write_lock, read_lock, optimistic, validate, unlock_write, unlock_read,
    unlock, to_write, to_read, to_optimistic, try_unlock_write, try_unlock_read, is_write_locked,
    is_read_locked, read_count)}
