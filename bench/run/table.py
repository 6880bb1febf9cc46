"""Runs a script by `stamped run`, in C and in python, alternating, and prints a table.

    run_table.py PROGRAM PYTHON_PROGRAM FOLDER STEPS ROUNDS

FOLDER holds script.json and the C program by_hand, on which the target of C is judged, and
by_jansson where that could be built. Times are those of whole processes, on the wall. Memory
is the most that one was resident. That of reading is the peak of `stamped run` of refused.json,
which is written here: the same script but for its last step, which names a thread that there isn't,
so it is read to its end and then refused, with status 1. Any other status but 0 ends the table."""
import json
import os
import statistics
import subprocess
import sys
import time

MOST_OF_PYTHON, MOST_OF_C, MOST_OF_RUN, MOST_BYTES = 0.5, 3.0, 1.3, 200.0
NO_THREAD = 64  # a script's threads are 0 to 63 at most


def check_status(words, found, wanted):
    if found != wanted:
        sys.exit(f"{words[0]} ended with status {found}, not {wanted}")


def printed(words, path):
    with open(path, "rb") as file:
        ran = subprocess.run(words, stdin=file, stdout=subprocess.PIPE)
    check_status(words, ran.returncode, 0)
    return ran.stdout


def seen_to_agree(ways, path):
    """Ends the table unless all print the same."""
    for option in [], ["--report"]:
        lines = {name: printed(words + option, path) for name, words in ways.items()}
        if len(set(lines.values())) != 1:
            lengths = {name: len(line) for name, line in lines.items()}
            sys.exit(f"the lines differ: {lengths} bytes")


def write_refused(path, refused):
    with open(path) as file:
        script = json.load(file)
    script["steps"][-1] = NO_THREAD
    with open(refused, "w") as file:
        file.write(json.dumps(script, separators=(",", ":")) + "\n")


def see_refused(words, refused, steps):
    """Ends the table unless the refusal is that of the last step, and nothing is printed."""
    with open(refused, "rb") as file:
        ran = subprocess.run(words, stdin=file, capture_output=True, text=True)
    check_status(words, ran.returncode, 1)
    line = f"stamped: script refused: no thread at step {steps - 1}\n"
    if (ran.stdout, ran.stderr) != ("", line):
        sys.exit(f"{words[0]} said {ran.stderr!r}, not {line!r}")


def measured(words, path, status=0, errors=None):
    """Returns the seconds that a process took, and its peak memory in bytes."""
    with open(path, "rb") as file, open(os.devnull, "wb") as sink:
        start = time.monotonic()
        process = subprocess.Popen(words, stdin=file, stdout=sink, stderr=errors)
        _, ended, usage = os.wait4(process.pid, 0)
        seconds = time.monotonic() - start
    process.returncode = os.waitstatus_to_exitcode(ended)
    check_status(words, process.returncode, status)
    return seconds, usage.ru_maxrss * 1024


def peak_of_reading(program, refused):
    return measured([program, "run"], refused, status=1, errors=subprocess.DEVNULL)[1]


def peers(in_python, folder):
    """The other programs that run scripts, by the names of their rows."""
    found = {"python3": [sys.executable, in_python]}
    for name, file in ("C", "by_hand"), ("C, jansson", "by_jansson"):
        path = os.path.join(folder, file)
        if os.path.exists(path):
            found[name] = [path]
    return found


def ratio_of(runs, one, other):
    return statistics.median(a[0] / b[0] for a, b in zip(runs[one], runs[other]))


def print_figure(name, figure, most, added=""):
    verdict = "met" if figure <= most else "MISSED"
    print(f"{name:16}{figure:8.2f}    (target: at most {most}: {verdict}){added}")


def print_times(runs):
    for name, figures in runs.items():
        seconds, peaks = zip(*figures)
        spread = f"({min(seconds):.3f} to {max(seconds):.3f})"
        print(f"{name:16}{statistics.median(seconds):8.3f} s  {spread}{max(peaks) / 1e6:8.1f} MB")


def print_ratios(runs):
    print_figure("of python3", ratio_of(runs, "stamped run", "python3"), MOST_OF_PYTHON)
    print_figure("of C", ratio_of(runs, "stamped run", "C"), MOST_OF_C)
    if "C, jansson" in runs:
        ratio = ratio_of(runs, "stamped run", "C, jansson")
        print(f"{'of C, jansson':16}{ratio:8.2f}    (no target)")
    print_figure("report of run", ratio_of(runs, "run --report", "stamped run"), MOST_OF_RUN)


def print_memory(runs, reading, steps):
    above = (max(peak for _, peak in runs["stamped run"]) - reading) / steps
    print_figure("bytes a step", above, MOST_BYTES, f", above {reading / 1e6:.1f} MB of reading")


def timed(program, others, path, refused, steps, rounds):
    ways = {"stamped run": [program, "run"], "run --report": [program, "run", "--report"]} | others
    runs = {name: [] for name in ways}
    reading = 0
    for _ in range(rounds):
        reading = max(reading, peak_of_reading(program, refused))
        for name, words in ways.items():
            runs[name].append(measured(words, path))
    print_times(runs)
    print_ratios(runs)
    print_memory(runs, reading, steps)


def main():
    program, in_python, folder = sys.argv[1:4]
    steps, rounds = (int(word) for word in sys.argv[4:6])
    path, refused = (os.path.join(folder, name) for name in ("script.json", "refused.json"))
    others = peers(in_python, folder)
    if len(sys.argv) > 6:  # in a process of its own: what it starts is charged with its size
        return timed(program, others, path, refused, steps, rounds)
    seen_to_agree({"stamped": [program, "run"]} | others, path)
    write_refused(path, refused)
    see_refused([program, "run"], refused, steps)
    size = os.path.getsize(path)
    print(f"{steps} steps, {size} bytes, the lines agree: stamped, {', '.join(others)}", flush=True)
    subprocess.run([sys.executable, *sys.argv, "timed"], check=True)


main()
