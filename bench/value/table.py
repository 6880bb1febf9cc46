"""Prints the tables of time.sh from its lines 'PROGRAM.PLACE NAME THREADS PAIRS NANOSECONDS GOOD'."""
import os
import sys

sys.path.append(os.path.join(os.path.dirname(os.path.abspath(__file__)), "..", "common"))
from placements import Times, head, row

# A pair by one thread: the title of its row, its name, and its peer's.
ALONE = [
    ("read, by a guard", "read", "read"),
    ("  of a new handle", "read_anew", "read"),
    ("  by a section", "read_with", "read"),
    ("write, by a guard", "write", "write"),
    ("  of a new handle", "write_anew", "write"),
    ("  by a section", "write_with", "write"),
    ("is_last of a stamp", "is_last", "is_last"),
]
# What the kit has: by one thread, and by several that mostly read.
BESIDE = [("read", "slot_read"), ("read_anew", "slot_read"), ("write", "slot_write"), ("write_anew", "slot_write")]


def read():
    times = Times()
    for line in open(sys.argv[1]):
        program, name, threads, pairs, nanoseconds, good = line.split()
        made = int(pairs) * int(threads)
        if name.endswith("mostly"):
            made = int(pairs) // 1024 * 1024 * int(threads)
        if int(good) < made * 0.99:
            sys.exit(f"too few pairs succeeded: {line}")
        times.add(program, name, int(threads), int(nanoseconds) / made)
    return times


def beside(times, title, name, peers, threads=1):
    """A line: the least of ours, and that of each peer of the same program with our ratio to it."""
    least = times.least("timings", name, threads)
    theirs = [times.least("timings", peer, threads) for peer in peers]
    return f"{title:28}{least:9.2f}" + "".join(f"{it:11.2f}{least / it:8.2f}" for it in theirs)


def main():
    times = read()
    titles = {name: title for title, name, _ in ALONE}
    print(head("ns a pair"))
    for title, name, peer in ALONE:
        print(row(times, title, ("timings", name), ("value_c", peer), ("StampedLock", peer)))
    print()
    print(head("ns a pair, of all threads"))
    for threads in range(1, 5):
        print(row(times, f"mostly reads, {threads}", ("timings", "mostly", threads),
                  ("value_c", "mostly", threads), ("StampedLock", "mostly", threads)))
    print()
    print(f"{'ns a pair':28}{'least':>9}{'RwLock':>11}{'of it':>8}{'Counted':>11}{'of it':>8}")
    for name, slot in BESIDE:
        print(beside(times, titles[name], name, [slot.replace("slot", "lock"), slot]))
    for threads in range(1, 5):
        print(beside(times, f"mostly reads, {threads}", "mostly", ["lock_mostly"], threads))


main()
