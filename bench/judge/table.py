"""Judges histories by `stamped check` and in python, alternating, and prints a table.

    judge_table.py PROGRAM JUDGE FOLDER ROUNDS

FOLDER holds history.json, on which both are timed; 10000.json, 40000.json and 160000.json, with so
many entries, on which `stamped check` alone is; and interval.json, order.json, overlap.json and
reply.json, which are broken. Both must print the same verdict on each. Times are those of whole
processes, on the wall. Memory is the most that one was resident."""
import os
import statistics
import subprocess
import sys
import time

MOST_RATIO, MOST_BYTES = 0.6, 20.0
CAUSES, COUNTS = ("interval", "order", "overlap", "reply"), (10_000, 40_000, 160_000)


def judged(words, path):
    with open(path, "rb") as file:
        ran = subprocess.run(words, stdin=file, capture_output=True, text=True)
    if ran.stderr:
        sys.exit(f"{words[0]} said {ran.stderr!r}")
    return ran.stdout.rstrip("\n"), ran.returncode


def verdict_on(ways, path):
    """The verdict of all ways on the history; ends the table unless it is one."""
    verdicts = {judged(words, path) for words in ways.values()}
    if len(verdicts) != 1:
        sys.exit(f"the verdicts on {os.path.basename(path)} differ: {sorted(verdicts)}")
    return verdicts.pop()


def see_verdicts(ways, folder):
    """Ends the table unless both judge alike, and as is wanted. (This process stays small: what
    it starts is charged with its size.)"""
    line, status = verdict_on(ways, os.path.join(folder, "history.json"))
    if not line.startswith("ok ") or status:
        sys.exit(f"the verdict is {line!r}, status {status}")
    for cause in CAUSES:
        bad, status = verdict_on(ways, os.path.join(folder, f"{cause}.json"))
        if not (bad.startswith("bad ") and bad.endswith(" " + cause) and status == 1):
            sys.exit(f"the verdict is {bad!r}, status {status}, and not {cause}")
    size = os.path.getsize(os.path.join(folder, "history.json"))
    print(f"{line}, {size} bytes; four broken ones are judged alike", flush=True)
    return size


def measured(words, path):
    """Returns the seconds that a process took, and its peak memory in bytes."""
    with open(path, "rb") as file, open(os.devnull, "wb") as sink:
        start = time.monotonic()
        process = subprocess.Popen(words, stdin=file, stdout=sink)
        _, status, usage = os.wait4(process.pid, 0)
        seconds = time.monotonic() - start
    process.returncode = os.waitstatus_to_exitcode(status)
    if process.returncode:
        sys.exit(f"{words[0]} ended with status {process.returncode}")
    return seconds, usage.ru_maxrss * 1024


def print_target(name, figure, most):
    found = "met" if figure <= most else "MISSED"
    print(f"{name:16}{figure:8.2f}    (target: at most {most}: {found})")


def print_sides(runs, size):
    for name, figures in runs.items():
        seconds, peaks = zip(*figures)
        spread = f"({min(seconds):.3f} to {max(seconds):.3f})"
        memory = f"{max(peaks) / 1e6:8.1f} MB, {max(peaks) / size:.1f} bytes a byte"
        print(f"{name:16}{statistics.median(seconds):8.3f} s  {spread}{memory}")
    ours, theirs = runs.values()
    ratio = statistics.median(mine[0] / other[0] for mine, other in zip(ours, theirs))
    print_target("ratio", ratio, MOST_RATIO)
    print_target("bytes a byte", max(peak for _, peak in ours) / size, MOST_BYTES)


def print_growth(grown):
    for count, figures in grown.items():
        seconds = statistics.median(figures)
        print(f"{count:8} entries {seconds:7.3f} s, {seconds / count * 1e9:6.0f} ns an entry")


def main():
    program, judge, folder, rounds = *sys.argv[1:4], int(sys.argv[4])
    ways = {"stamped check": [program, "check"], "python3": [sys.executable, judge]}
    size = see_verdicts(ways, folder)
    runs, grown = {name: [] for name in ways}, {count: [] for count in COUNTS}
    for _ in range(rounds):
        for name, words in ways.items():
            runs[name].append(measured(words, os.path.join(folder, "history.json")))
        for count, figures in grown.items():
            path = os.path.join(folder, f"{count}.json")
            figures.append(measured(ways["stamped check"], path)[0])
    print_sides(runs, size)
    print_growth(grown)


main()
