"""Recorded histories of `stamped run` with their points taken off, explained by the program.

    runs.py EXPLAIN STAMPED

Run at the top of the repository. Threads make calls of a lock, and of a record that it guards, and are
interleaved at random. Of the recorded history that `run` tells, the points are taken off and the entries listed
in another order; of some, what returned after a moment is under way, or was never begun. Each is explained, and
`stamped check` accepts what is found: a recorded history of at least the calls that returned."""
import json
import random
import subprocess
import sys

# Threads, calls of each, and the width of the record; and whether the end is cut off.
SIZES = [(threads, calls, width, cut)
         for threads, calls in [(1, 50), (2, 200), (4, 400), (8, 250), (16, 60)]
         for width in [0, 2] for cut in [False, True]]
PATTERNS = [
    [["try_read"], ["validate", 1], ["unlock_read", 2]],
    [["try_write"], ["validate", 1], ["unlock_write", 2]],
    [["try_read"], ["to_write", 1], ["unlock", 1], ["unlock", 3]],
    [["try_write"], ["to_read", 1], ["unlock", 1]],
    [["optimistic"], ["to_read", 1], ["to_optimistic", 1], ["validate", 1]],
    [["optimistic"], ["to_write", 1], ["unlock_write", 1], ["read_count"]],
]


def calls_of(chance, thread, count, width):
    calls = []
    while len(calls) < count:
        if width and chance.random() < 0.4:
            words = [[chance.randrange(3) for _ in range(width)] for _ in range(2)]
            calls.append(chance.choice([["get"], ["put", words[0]], ["put_if", *words]]))
            continue
        at = len(calls)
        for name, *before in chance.choice(PATTERNS):
            calls.append([name, *([thread, len(calls) - b] for b in before)])
        assert len(calls) > at
    return calls


def output_of(words, text):
    run = subprocess.run(words, input=text, capture_output=True, timeout=3600)
    if run.returncode != 0:
        sys.exit(f"{words} ended with status {run.returncode}: {run.stdout[:200]} {run.stderr}")
    return run.stdout


def observed(chance, history, cut):
    """What is known of a run at this moment, with no points."""
    entries = []
    for entry in history["entries"]:
        if entry["first"] > cut:
            continue
        kept = ("call", "first", "thread") if entry["last"] > cut else ("call", "first", "last", "reply", "thread")
        entries.append({key: entry[key] for key in kept})
    chance.shuffle(entries)
    return {**history, "entries": entries}


def main():
    explain, stamped = sys.argv[1:]
    chance, total = random.Random(2), 0
    for threads, calls, width, cut in SIZES:
        steps = [chance.randrange(threads) for _ in range(threads * calls * 4)]
        script = {"readers": 127, "steps": steps, "versions": 100_000, "width": width,
                  "threads": [calls_of(chance, thread, calls, width) for thread in range(threads)]}
        history = json.loads(output_of([stamped, "run"], json.dumps(script).encode()))
        last = max(entry["last"] for entry in history["entries"])
        known = observed(chance, history, last // 2 if cut else last)
        found = output_of([explain], json.dumps(known).encode())
        count = len(json.loads(found)["entries"])
        told = output_of([stamped, "check"], found)
        returned = sum("last" in entry for entry in known["entries"])
        if told != f"ok {count}\n".encode() or not returned <= count <= len(known["entries"]):
            sys.exit(f"{threads} threads of {calls} calls, width {width}: {told} of {count}, {returned} returned")
        total += len(known["entries"])
    print(f"runs: {len(SIZES)} histories of {total} calls explained")


if __name__ == "__main__":
    main()
