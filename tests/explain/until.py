"""A stuck observed history, cut at a return and given other replies there by recorders/until.py, as on docs/JUDGING.md.

    until.py EXPLAIN

Run at the top of the repository."""
import json
import subprocess
import sys

# Thread 1 writes, so entry 2 is wrong. Of the returns at position 6, that of entry 1 comes before it and that of
# entry 3 after it. Entry 4 begins later.
ENTRIES = [
    {"call": ["write_lock"], "first": 0, "last": 1, "reply": 384, "thread": 1},
    {"call": ["is_write_locked"], "first": 2, "last": 6, "reply": "yes", "thread": 2},
    {"call": ["try_read"], "first": 2, "last": 6, "reply": 257, "thread": 0},
    {"call": ["unlock_write", 384], "first": 5, "last": 6, "reply": "mismatch", "thread": 1},
    {"call": ["read_count"], "first": 7, "last": 8, "reply": {"count": 9}, "thread": 0},
]
# The words behind until.py, the replies that are known then, and whether they are explained.
CASES = [
    (["2", "0"], [384, "yes", 0, None], True),
    (["2", "513"], [384, "yes", 513, None], True),
    (["2"], [384, "yes", None, None], True),
    (["2", "257"], [384, "yes", 257, None], False),
    (["1", '"no"'], [384, "no", None, None], True),
    (["4"], [384, "yes", 257, "mismatch", None], False),
]


def output_of(words, text):
    return subprocess.run(words, input=text, capture_output=True, text=True, timeout=3600).stdout


def main():
    history = json.dumps({"entries": ENTRIES, "format": 1, "readers": 127, "versions": 1000, "width": 0})
    for words, replies, is_explained in CASES:
        known = output_of([sys.executable, "recorders/until.py", *words], history)
        found = output_of([sys.argv[1]], known)
        told = [entry.get("reply") for entry in json.loads(known)["entries"]]
        if told != replies or found.startswith('{"entries":') != is_explained:
            sys.exit(f"until.py {words}: {told}, {found}")
    print(f"until: {len(CASES)} cuts of a stuck history, explained where they are to be")


main()
