"""Locks in C with a planted bug, observed and judged.

    planted.py EXPLAIN STAMPED [CALLS [SEED]]

Run at the top of the repository; it wants cc. planted.c is run with 4 threads and at most CALLS calls (10,000
if not said), with RUNS seeds. The right lock must be explained, and each planted bug found in each run: a run is the
same on each machine."""
import json
import os
import subprocess
import sys
import tempfile

BUGS = ("upgrade", "version", "validate")
RUNS = 3


def output_of(words, text=b""):
    return subprocess.run(words, input=text, capture_output=True).stdout


def found_at(explain, run):
    """What is said of where a run is stuck; nothing where it is explained."""
    entries = json.loads(run)["entries"]
    found = output_of([explain], run).decode().rstrip("\n")
    if not found.startswith("stuck "):
        return None
    last = entries[int(found.split()[1])]["last"]
    return f"the return of call {sum(entry['last'] <= last for entry in entries)} of {len(entries)}"


def main():
    explain, stamped = sys.argv[1:3]
    calls = sys.argv[3] if len(sys.argv) > 3 else "10000"
    seed = int(sys.argv[4]) if len(sys.argv) > 4 else 1
    with tempfile.TemporaryDirectory() as room:
        planted = os.path.join(room, "planted")
        subprocess.run(["cc", "-O2", "-pthread", "-I", "bench/common", "-o", planted, "tests/explain/planted.c"],
                       check=True)
        runs = {bug: [output_of([planted, bug, "4", calls, str(seed + 100 * run)]) for run in range(RUNS)]
                for bug in ("right", *BUGS)}
    for right in runs["right"]:
        found = output_of([stamped, "check"], output_of([explain], right)).decode().rstrip("\n")
        if found != f"ok {len(json.loads(right)['entries'])}":
            sys.exit(f"the right lock: {found[:60]!r}")
    print(f"planted: the right lock is {found}")
    for bug in BUGS:
        places = [found_at(explain, run) for run in runs[bug]]
        if None in places:
            sys.exit(f"{bug} is not found: {places}")
        print(f"planted: {bug} is found at {'; '.join(places)}")


main()
