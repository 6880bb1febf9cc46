"""Makes stage 4 of ./test again and again, on some cores, beside busy loops. It isn't made by ./test.

    busy.py [--runs N] [--beside M] [--loops K] [--cores LIST] [--programs FOLDER] [TRY..]

Run at the top of the repository. N runs (10 if not said) of tests/in_use.sh, with all its tries or with these alone, M
of them at a time (1), on the cores that are named as for `taskset -c` (all), beside K loops on these cores (none). The
programs are those in crates/NAME/out, or in FOLDER, which may have the rest of what in_use.sh wants too. Each run has a
folder of its own. A line tells what came of it, below what it told if a try failed. The last line tells how many runs
failed; the status is 1 if any did."""
import argparse
import concurrent.futures
import os
import shutil
import subprocess
import sys
import tempfile
import time

# A loop ends with the process that started it, however this ends.
LOOP = "import os, sys\nwhile os.getppid() == int(sys.argv[1]):\n    for _ in range(1_000_000): pass"
LIBRARY = "crates/stamp_core/out/rlib"


def options_of(words):
    parser = argparse.ArgumentParser(usage=__doc__)
    parser.add_argument("--runs", type=int, default=10)
    parser.add_argument("--beside", type=int, default=1)
    parser.add_argument("--loops", type=int, default=0)
    parser.add_argument("--cores", default=f"0-{os.cpu_count() - 1}")
    parser.add_argument("--programs")
    parser.add_argument("tries", nargs="*")
    return parser.parse_args(words)


def run_of(options, number):
    """Makes a run, and tells what came of it: whether all tries passed."""
    with tempfile.TemporaryDirectory() as room:
        if options.programs:
            shutil.copytree(options.programs, room, dirs_exist_ok=True, symlinks=True)
        if os.path.isdir(LIBRARY):
            os.makedirs(f"{room}/libraries", exist_ok=True)
            os.symlink(os.path.abspath(LIBRARY), f"{room}/libraries/stamp_core")
        begin = time.monotonic()
        made = subprocess.run(["tests/in_use.sh", room, *options.tries], stdout=subprocess.PIPE,
                              stderr=subprocess.STDOUT, text=True, errors="replace")
        passed, *failed = ["0", "unfinished"]
        if os.path.exists(f"{room}/in_use"):
            with open(f"{room}/in_use", encoding="utf-8") as file:
                passed, *failed = file.read().split()
    told = f"run {number}: {passed} passed, {len(failed)} failed in {time.monotonic() - begin:.0f} s"
    print(f"{made.stdout}{told}: {' '.join(failed)}" if failed else told, flush=True)
    return not failed and int(passed) > 1


def main():
    options = options_of(sys.argv[1:])
    subprocess.run(["taskset", "-pc", options.cores, str(os.getpid())], check=True, stdout=subprocess.DEVNULL)
    loops = [subprocess.Popen([sys.executable, "-c", LOOP, str(os.getpid())]) for _ in range(options.loops)]
    try:
        with concurrent.futures.ThreadPoolExecutor(options.beside) as pool:
            failed = [*pool.map(lambda number: run_of(options, number), range(1, options.runs + 1))].count(False)
    finally:
        for loop in loops:
            loop.kill()
    print(f"{options.runs} runs on cores {options.cores}, {options.beside} at a time, beside {options.loops} loops: "
          f"{failed} failed")
    sys.exit(failed > 0)


main()
