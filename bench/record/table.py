"""Prints the tables of time.sh from its lines 'PROGRAM.PLACE NAME THREADS CALLS NANOSECONDS GOOD'."""
import os
import sys

sys.path.append(os.path.join(os.path.dirname(os.path.abspath(__file__)), "..", "common"))
from placements import Times, head, row

# A call by one thread: the title of its row, its name, and its peer's.
ALONE = [(f"{title}, {width} words", f"{ours}{width}", f"{peer}{width}") for title, ours, peer in (
    ("get by a handle", "handle", "into"),
    ("  handed on", "handle_hand", "into"),
    ("get_into", "into", "into"),
    ("get_once", "get", "into"),
    ("  handed on", "hand", "into"),
    ("put_once", "put", "put"),
    ("update by a handle", "update", "update"),
) for width in (2, 16)]
# The kit's cell of the same words.
CELL = [(f"{title}, {width} words", f"{name}{width}") for title, name in (("SeqCell: load", "load"), ("  store", "store"))
        for width in (2, 16)]
# Several threads.
SEVERAL = [
    ("gets by handles", "handle_readers", "readers"),
    ("get_into", "readers", "readers"),
    ("get_into beside a writer", "beside", "beside"),
    ("updates by handles", "updaters", "updaters"),
]


def read():
    times, left_out = Times(), 0
    for line in open(sys.argv[1]):
        program, name, threads, calls, nanoseconds, good = line.split()
        made = int(calls) * int(threads)
        if name == "beside" and int(good) < made * 0.9:
            # The system stopped the writer in the middle of a put.
            left_out += 1
            continue
        if int(good) < made * 0.9:
            sys.exit(f"too few calls succeeded: {line}")
        if name.startswith("update") and int(good) != made:
            sys.exit(f"an update was lost: {line}")
        times.add(program, name, int(threads), int(nanoseconds) / int(good))
    return times, left_out


def main():
    times, left_out = read()
    print(head("ns a call"))
    for title, name, peer in ALONE:
        print(row(times, title, ("timings", name), ("record_c", peer), ("StampedLock", peer)))
    print()
    for title, name in CELL:
        print(f"{title:28}{times.least('timings', name):9.2f}{'':17}{times.middle('timings', name):11.2f}")
    print()
    print(head("ns a call, of all threads"))
    for title, name, peer in SEVERAL:
        for threads in range(1, 5):
            print(row(times, f"{title}, {threads}", ("timings", name, threads), ("record_c", peer, threads),
                      ("StampedLock", peer, threads)))
    if left_out:
        print(f"\nrounds left out, since the writer was stopped in a put: {left_out}")


main()
