"""Writes a script of 64 threads to a file: make_script.py FILE [STEPS [MIX]].

MIX is `lock` (the default: acquisitions, releases by what was acquired, validations, conversions) or
`record` (gets and puts of 16 words). The threads alternate at random. The same arguments give the same
file, of at most 16,777,216 bytes and 10,000 calls a thread."""
import json
import random
import sys

THREADS, CALLS, WIDTH = 64, 10_000, 16

# Each line is a run of calls by one thread; a number is how many calls before stands the one whose
# stamp is meant. Whatever fails, each gives back what it got.
PATTERNS = [
    [["try_read"], ["validate", 1], ["unlock_read", 2]],
    [["try_write"], ["validate", 1], ["unlock_write", 2]],
    [["try_read"], ["to_write", 1], ["unlock", 1], ["unlock", 3]],
    [["try_write"], ["to_read", 1], ["unlock", 1]],
    [["try_write"], ["to_optimistic", 1], ["validate", 1]],
    [["optimistic"], ["to_read", 1], ["to_optimistic", 1], ["validate", 1]],
    [["optimistic"], ["to_write", 1], ["unlock_write", 1]],
    [["try_read"], ["to_optimistic", 1], ["validate", 1]],
]


def lock_calls(thread, chance):
    calls = []
    while True:
        pattern = chance.choice(PATTERNS)
        if len(calls) + len(pattern) > CALLS:
            return calls
        for name, *before in pattern:
            calls.append([name, *([thread, len(calls) - b] for b in before)])


def record_calls(chance, count):
    """One call in forty is a put, and one in 400 a conditional one."""
    calls = []
    for _ in range(count):
        draw = chance.randrange(400)
        if draw == 0:
            calls.append(["put_if", [0] * WIDTH, words(chance)])
        else:
            calls.append(["put", words(chance)] if draw <= 10 else ["get"])
    return calls


def words(chance):
    return [chance.randrange(1_000_000) for _ in range(WIDTH)]


def steps_of(count, most, chance):
    """The threads make one step to so many at a stretch."""
    made = []
    while len(made) < count:
        made += [chance.randrange(THREADS)] * chance.randint(1, most)
    return made[:count]


def main():
    path = sys.argv[1]
    steps = int(sys.argv[2]) if len(sys.argv) > 2 else 1_000_000
    mix = sys.argv[3] if len(sys.argv) > 3 else "lock"
    chance = random.Random(17)
    if mix == "lock":
        width, most, threads = 0, 1, [lock_calls(t, chance) for t in range(THREADS)]
    else:
        width, most, threads = WIDTH, 200, [record_calls(chance, steps // THREADS // WIDTH + 1) for _ in range(THREADS)]
    script = {"readers": 127, "steps": steps_of(steps, most, chance), "threads": threads, "versions": 2**55 - 2, "width": width}
    text = json.dumps(script, separators=(",", ":")) + "\n"
    if len(text) > 16_777_216:
        sys.exit(f"{len(text)} bytes are too many")
    with open(path, "w") as file:
        file.write(text)


main()
