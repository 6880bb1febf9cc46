"""Writes observed histories that are hard for a search into a folder: make_cases.py FOLDER.

In each of them 64 calls or fewer are open at once: they begin together, and return one after the other in
an order drawn at random. The same program makes the same files."""
import json
import os
import random
import sys

EARLY, LATE = 1000, 10000


def call(thread, first, last, reply, *words):
    return {"call": list(words), "first": first, "last": last, "reply": reply, "thread": thread}


def open_at_once(made):
    """Calls that begin together, one of each thread: (reply, words) of each."""
    ends = list(range(len(made)))
    random.Random(17).shuffle(ends)
    return [call(thread, EARLY, LATE + end, reply, *words)
            for thread, (end, (reply, words)) in enumerate(zip(ends, made))]


def releases():
    """64 readers one after the other, and 64 releases by one stamp at once."""
    readers = [call(i, 2 * i, 2 * i + 1, 257 + i, "try_read") for i in range(64)]
    return readers + open_at_once([("done", ("unlock_read", 257))] * 64)


def levels(calls, count):
    """CALLS at once, half of them read acquisitions and half releases; their stamps say that there were 1 to
    COUNT readers."""
    stamps = [257 + i % count for i in range(calls // 2)]
    acquired = [(stamp, ("read_lock",)) for stamp in stamps]
    return open_at_once(acquired + [("done", ("unlock_read", stamp)) for stamp in stamps])


def unexplained_levels(calls, count):
    """The same but for a release, and afterwards a reader that finds no other, where one is left."""
    made = levels(calls, count)
    made.pop()
    return made + [call(0, 2 * LATE, 2 * LATE + 1, 257, "try_read")]


def contents(count):
    """Puts and gets of COUNT contents at once, and afterwards a get of the zeros from before them."""
    puts = [("done", ("put", [i + 1])) for i in range(count)]
    made = open_at_once(puts + [([i + 1], ("get",)) for i in range(count)])
    return made + [call(0, 2 * LATE, 2 * LATE + 1, [0], "get")]


CASES = {
    "64 releases by one stamp": (releases(), 0),
    "16 readers and releases, 4 levels": (levels(16, 4), 0),
    "16 readers and releases, 4 levels, never explained": (unexplained_levels(16, 4), 0),
    "32 readers and releases, 8 levels": (levels(32, 8), 0),
    "64 readers and releases, 16 levels": (levels(64, 16), 0),
    "puts and gets of 8 contents, never explained": (contents(8), 1),
    "puts and gets of 12 contents, never explained": (contents(12), 1),
    "puts and gets of 16 contents, never explained": (contents(16), 1),
}


def main():
    for name, (entries, width) in CASES.items():
        history = {"entries": entries, "format": 1, "readers": 127, "versions": 1000, "width": width}
        with open(os.path.join(sys.argv[1], f"{name}.case"), "w") as file:
            file.write(json.dumps(history, separators=(",", ":")) + "\n")


main()
