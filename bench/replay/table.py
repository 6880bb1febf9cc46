"""Runs a program's `replay` and python's json on the same file, alternating, and prints a table.

    replay_table.py PROGRAM FILE CALLS ROUNDS

Times are those of whole processes, on the wall. Memory is the most that one was resident."""
import os
import statistics
import subprocess
import sys
import time

COPY = "import json, sys; sys.stdout.write(json.dumps(json.loads(sys.stdin.read()), separators=(',', ':')))"
MOST_RATIO, MOST_BYTES = 0.4, 14.0


def seen_to_answer(words, path, calls):
    """Ends the run unless each call is answered. (This process stays small: what it starts is charged with its size.)"""
    with open(path, "rb") as file:
        ran = subprocess.run(words, stdin=file, stdout=subprocess.PIPE)
    if ran.returncode:
        sys.exit(f"{words[0]} ended with status {ran.returncode}")
    replies = ran.stdout.count(b",")  # the last one stands before the word
    if replies != calls:
        sys.exit(f"{replies} replies to {calls} calls")
    print(f"{calls} calls, {os.path.getsize(path)} bytes")


def measured(words, path):
    """Returns the seconds that a process took, and its peak memory in bytes."""
    with open(path, "rb") as file, open(os.devnull, "wb") as sink:
        start = time.monotonic()
        process = subprocess.Popen(words, stdin=file, stdout=sink)
        _, status, usage = os.wait4(process.pid, 0)
        seconds = time.monotonic() - start
    process.returncode = os.waitstatus_to_exitcode(status)
    if process.returncode:
        sys.exit(f"{words[0]} ended with status {process.returncode}")
    return seconds, usage.ru_maxrss * 1024


def verdict(figure, most):
    return f"(target: at most {most}: {'met' if figure <= most else 'MISSED'})"


def main():
    program, path, calls, rounds = sys.argv[1], sys.argv[2], int(sys.argv[3]), int(sys.argv[4])
    ways = {"stamped replay": [program, "replay"], "python3 json": [sys.executable, "-c", COPY]}
    seen_to_answer(ways["stamped replay"], path, calls)
    runs = {name: [] for name in ways}
    for _ in range(rounds):
        for name, words in ways.items():
            runs[name].append(measured(words, path))
    for name, figures in runs.items():
        seconds, peaks = zip(*figures)
        low, high = min(seconds), max(seconds)
        print(f"{name:16}{statistics.median(seconds):8.3f} s  ({low:.3f} to {high:.3f}){max(peaks) / 1e6:8.1f} MB")
    ours, theirs = runs.values()
    ratio = statistics.median(mine[0] / other[0] for mine, other in zip(ours, theirs))
    per_byte = max(peak for _, peak in ours) / os.path.getsize(path)
    print(f"{'ratio':16}{ratio:8.2f}    {verdict(ratio, MOST_RATIO)}")
    print(f"{'bytes a byte':16}{per_byte:8.1f}    {verdict(per_byte, MOST_BYTES)}")


main()
