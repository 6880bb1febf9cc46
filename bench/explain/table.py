"""Explains histories by `stamped_explain` and by the search in C++, alternating, and prints tables.

    table.py PROGRAM CPP STAMPED FOLDER ROUNDS

FOLDER holds runs, N.json of N calls; N.faulty, the same with one more entry, which is over before it began;
and NAME.case. Times are seconds of the processor that whole processes took, medians of the rounds; memory is
the most that one was resident. Reading is what N.faulty takes: it is read to its end, and nothing is judged.
In the cases ours keeps MOST positions at most, and the search in C++ looks at MOST configurations at most; it knows
no record. (This process stays small: what it starts is charged with its size.)"""
import glob
import json
import os
import statistics
import subprocess
import sys

RUNS, MOST_RATIO, MOST_MICROSECONDS, MOST_INPUT = (12_500, 50_000, 200_000), 3.0, 2.0, 16_777_216
MOST = 200_000


def measured(words, path, sink):
    """The seconds of the processor that a process took, and its peak memory in bytes."""
    with open(path, "rb") as file, open(sink, "wb") as out:
        process = subprocess.Popen(words, stdin=file, stdout=out, stderr=subprocess.DEVNULL)
        _, status, usage = os.wait4(process.pid, 0)
    process.returncode = os.waitstatus_to_exitcode(status)
    return usage.ru_utime + usage.ru_stime, usage.ru_maxrss * 1024


def told(sink):
    """What was found, in a word."""
    with open(sink, "rb") as file:
        begin = file.read(40)
    return "explained" if begin.startswith(b"{") else begin.decode().rstrip("\n")


def see_accepted(stamped, history, calls):
    if os.path.getsize(history) > MOST_INPUT:
        return
    with open(history, "rb") as file:
        line = subprocess.run([stamped, "check"], stdin=file, capture_output=True, text=True).stdout
    if line != f"ok {calls}\n":
        sys.exit(f"stamped check: {line!r}, and not ok {calls}")


def run_of(ways, stamped, folder, count, rounds):
    path, faulty, sink = (os.path.join(folder, name) for name in (f"{count}.json", f"{count}.faulty", "sink"))
    measured(ways["stamped_explain"], faulty, sink)
    calls = int(told(sink).split()[1])
    seen = {name: [] for name in (*ways, "reading")}
    for _ in range(rounds):
        for name, words in ways.items():
            seen[name].append(measured(words, path, sink))
            if told(sink) != "explained":
                sys.exit(f"{name} of {count}: {told(sink)}")
            see_accepted(stamped, sink, calls)
        seen["reading"].append(measured(ways["stamped_explain"], faulty, sink))
        if told(sink) != f"bad {calls} interval":
            sys.exit(f"reading {count}: {told(sink)}")
    return calls, seen


def print_run(calls, seen):
    ours, cpp, reading = ([row[0] for row in seen[name]] for name in ("stamped_explain", "C++", "reading"))
    peaks = [max(row[1] for row in seen[name]) for name in ("stamped_explain", "C++", "reading")]
    ratio = statistics.median(a / b for a, b in zip(ours, cpp))
    above = statistics.median(a - b for a, b in zip(ours, reading)) / calls * 1e6
    megabytes = "".join(f"{peak / 1e6:8.0f}" for peak in peaks)
    medians = "".join(f"{statistics.median(each):9.3f}" for each in (ours, cpp, reading))
    print(f"{calls:8}{medians}{megabytes}{ratio:8.2f}{above:10.2f}", flush=True)
    return ratio, above


def print_case(ways, path, sink, rounds):
    name = os.path.basename(path).removesuffix(".case")
    with open(path) as file:
        width = json.load(file)["width"]
    shown = []
    for way, words in ways.items():
        if width and way == "C++":
            continue
        rows = [measured([*words, "--most", str(MOST)], path, sink) for _ in range(rounds)]
        seconds = statistics.median(row[0] for row in rows)
        shown.append(f"{way} {told(sink)}, {seconds:.3f} s, {max(row[1] for row in rows) / 1e6:.0f} MB")
    print(f"{name}: " + "; ".join(shown), flush=True)


def main():
    program, cpp, stamped, folder, rounds = *sys.argv[1:5], int(sys.argv[5])
    ways = {"stamped_explain": [program], "C++": [cpp]}
    print(f"{'calls':>8}{'ours, s':>9}{'C++, s':>9}{'reading':>9}{'MB':>8}{'C++':>8}{'reading':>8}{'ratio':>8}{'us above':>10}")
    for count in RUNS:
        ratio, above = print_run(*run_of(ways, stamped, folder, count, rounds))
    for name, figure, most in (("ratio", ratio, MOST_RATIO), ("microseconds a call above reading", above, MOST_MICROSECONDS)):
        print(f"{name}: {figure:.2f} (target: at most {most}: {'met' if figure <= most else 'MISSED'})")
    for path in sorted(glob.glob(os.path.join(folder, "*.case"))):
        print_case(ways, path, os.path.join(folder, "sink"), min(rounds, 3))


main()
