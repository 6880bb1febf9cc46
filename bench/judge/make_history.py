"""Writes a history of 64 threads to a file: make_history.py FILE [ENTRIES [WIDTH [CAUSE]]].

With no number of entries, or 0, as many as an input has room for. The calls go round a cycle in
which all of them come up, each with the stamp answered last; their intervals overlap, but those of
one thread don't, and the order of threads is drawn at random. With CAUSE (interval, order, overlap or
reply) the entry in the middle is made to break that. The same arguments give the same file."""
import json
import random
import sys

from call_table import TABLE, VERSION

THREADS, MOST_BYTES = 64, 16_777_216

LOCK_CALLS = """optimistic validate try_read read_lock is_read_locked unlock_read read_count
to_write is_write_locked to_read to_optimistic write_lock validate unlock_write try_write unlock
try_read try_unlock_read try_unlock_write unlock_write""".split()
WITH_STAMP = set("validate unlock_write unlock_read unlock to_write to_read to_optimistic".split())
WIDEST = (127, 2**55 - 2)


def answered(width):
    """Calls with their replies, without end."""
    word, stamp, number = VERSION, 0, 0
    while True:
        for name in LOCK_CALLS:
            decision = TABLE[name](WIDEST, word, stamp)
            if decision is None:  # it would wait
                continue
            yield [name, stamp] if name in WITH_STAMP else [name], decision[1]
            word = word if decision[0] is None else decision[0]
            stamp = decision[1] if isinstance(decision[1], int) else stamp
        if width:
            held, put, last = ([number + more] * width for more in (0, 1, 2))
            yield from ((["put", put], "done"), (["get"], put))
            yield from ((["put_if", put, last], "yes"), (["put_if", held, put], "no"))
            number += 2


def threads(count, chance):
    """The thread of each entry: in each round each has one."""
    made, all_threads = [], list(range(THREADS))
    while len(made) < count:
        chance.shuffle(all_threads)
        made += all_threads
    return made[:count]


def intervals(made_by, chance):
    """First position, point and last position of each entry."""
    points = [4 * index + chance.randrange(2) for index in range(len(made_by))]
    firsts, lasts, before = list(points), list(points), {}
    for index, thread in enumerate(made_by):
        start = 0
        if thread in before:  # its two calls part somewhere between their points
            earlier = before[thread]
            start = (points[earlier] + points[index]) // 2 + 1
            lasts[earlier] = chance.randint(points[earlier], start - 1)
        firsts[index] = chance.randint(start, points[index])
        before[thread] = index
    return zip(firsts, points, lasts)


def entries(count, width):
    chance = random.Random(17)
    made_by = threads(count, chance)
    rows = zip(made_by, intervals(made_by, chance), answered(width))
    for thread, (first, point, last), (call, reply) in rows:
        yield {"call": call, "first": first, "last": last, "point": point, "reply": reply,
               "thread": thread}


def break_one(made, index, cause):
    entry, before = made[index], made[index - 1]
    if cause == "interval":
        entry["first"] = entry["point"] + 1
    elif cause == "order":
        entry["first"] = entry["point"] = before["point"]
    elif cause == "overlap":
        entry["first"] = next(other["last"] for other in reversed(made[:index])
                              if other["thread"] == entry["thread"])
    elif cause == "reply":
        entry["reply"] = {"count": 99}
    else:
        sys.exit(f"no cause {cause}")


def text_of(made, width):
    history = {"entries": made, "format": 1, "readers": 127, "versions": WIDEST[1], "width": width}
    return json.dumps(history, separators=(",", ":")) + "\n"


def most_that_fit(made, width):
    """As many of them as make a text of at most MOST_BYTES."""
    room = MOST_BYTES - len(text_of([], width)) + 1  # the first has no comma
    for count, entry in enumerate(made):
        room -= len(json.dumps(entry, separators=(",", ":"))) + 1
        if room < 0:
            return made[:count]
    sys.exit("too few to fill the text")


def argument(index, other):
    return int(sys.argv[index]) if len(sys.argv) > index else other


def main():
    path, count, width = sys.argv[1], argument(2, 0), argument(3, 2)
    made = list(entries(count or 200_000, width))
    if len(sys.argv) > 4:
        break_one(made, len(made) // 2, sys.argv[4])
    text = text_of(made if count else most_that_fit(made, width), width)
    with open(path, "w") as file:
        file.write(text)


main()
