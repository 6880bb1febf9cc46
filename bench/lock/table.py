"""Prints the tables of time.sh from its lines 'PROGRAM.PLACE NAME THREADS PAIRS NANOSECONDS GOOD'."""
import os
import sys

sys.path.append(os.path.join(os.path.dirname(os.path.abspath(__file__)), "..", "common"))
from placements import Times, head, row

# A pair by one thread: the title of its row, its name, and its peer's.
ALONE = [
    ("optimistic, by a handle", "handle_optimistic", "optimistic"),
    ("  by a lent handle", "handle_lent", "optimistic"),
    ("  of either layout", "handle_either", "optimistic"),
    ("  by once_in", "known", "optimistic"),
    ("  by once", "optimistic", "optimistic"),
    ("read, by a handle", "handle_read", "read"),
    ("  by once", "read", "read"),
    ("write, by a handle", "handle_write", "write"),
    ("  by once", "write", "write"),
]
# C's optimistic pair with another test, and without any.
BESIDE = [("C, a stamp that isn't 0", "tested"), ("two loads and one compare", "least")]
# Several threads that mostly validate.
SEVERAL = [("by handles", "handle_mostly"), ("by once", "mostly")]


def read():
    times = Times()
    for line in open(sys.argv[1]):
        program, name, threads, pairs, nanoseconds, good = line.split()
        made = int(pairs) * int(threads)
        if name.endswith("mostly"):
            made = int(pairs) // 1024 * 1024 * int(threads)
        if int(good) < made * 0.99:
            sys.exit(f"too few pairs succeeded: {line}")
        times.add(program, name, int(threads), int(nanoseconds) / made)
    return times


def main():
    times = read()
    print(head("ns a pair"))
    for title, name, peer in ALONE:
        print(row(times, title, ("timings", name), ("lock_c", peer), ("StampedLock", peer)))
    print()
    for title, name in BESIDE:
        least, middle = times.least("lock_c", name), times.middle("lock_c", name)
        print(f"{title:28}{least:9.2f}{'':17}{middle:11.2f}")
    print()
    print(head("ns a pair, of all threads"))
    for title, name in SEVERAL:
        for threads in range(1, 5):
            print(row(times, f"{title}, {threads}", ("timings", name, threads), ("lock_c", "mostly", threads),
                      ("StampedLock", "mostly", threads)))


main()
