"""Runs of the JDK's class, judged by `stamped_watch` while they go on.

    live.py WATCH [CALLS [SECONDS]]

Run at the top of the repository; it wants javac and java. Each load of Loads.java is run by 4, 16 and 64 threads with
CALLS calls (20,000 if not said), which go to the judge through a FIFO, in turn by its name and as standard input. Each
must be `ok` with the calls that were made, and a run of a wrong lock, which doesn't end by itself, `stuck`. With
SECONDS one load of 16 threads runs for so long besides. A line has the calls a second that were made and judged, the
judge's processor time a call, and its peak memory, which is at least python's."""
import glob
import os
import subprocess
import sys
import tempfile
import time

from streams import started

LOADS, THREADS = ("mixed", "read", "write", "convert", "waits", "stampless"), (4, 16, 64)
# The threads of the load with guarded words: 4 and 16 once stamped_watch reads such streams.
GUARDED_THREADS = (4, 16)


def judged(watch, classes, fifo, by_name, load, threads, calls):
    """The verdict and the note, the seconds of both and of the judge's processor, and its peak memory in KiB."""
    begin = time.monotonic()
    words = ["java", "-Xmx512m", "-Xss512k", "-cp", classes, "Loads", load, str(threads), calls, fifo]
    with started(words, stdin=subprocess.PIPE, stderr=subprocess.PIPE) as java:
        with subprocess.Popen(["sh", "-c", 'exec "$0" "$1"' if by_name else 'exec "$0" < "$1"', watch, fifo],
                              stdout=subprocess.PIPE, stderr=subprocess.PIPE) as judge:
            line, note = judge.stdout.read().decode().strip(), judge.stderr.read().decode().strip()
            _, status, usage = os.wait4(judge.pid, 0)
            judge.returncode = os.waitstatus_to_exitcode(status)
        if not line.startswith("ok "):
            if load == "wrong" and java.poll() is not None:
                sys.exit(f"live: {line} is told once the run has ended")
            java.kill()
        told = java.stderr.read().decode().strip()
    if java.returncode != 0 and line.startswith("ok "):
        sys.exit(f"live: {load} {threads}: java ended with status {java.returncode}: {told}")
    if judge.returncode != (not line.startswith("ok ")):
        sys.exit(f"live: {load} {threads}: {line} with status {judge.returncode}")
    return line, note, time.monotonic() - begin, usage.ru_utime + usage.ru_stime, usage.ru_maxrss


def try_load(watch, classes, fifo, by_name, load, threads, calls):
    """Whether the run is explained, with all its calls."""
    line, note, seconds, processor, memory = judged(watch, classes, fifo, by_name, load, threads, calls)
    word, _, number = line.partition(" ")
    many = int(number) if word == "ok" else 0
    is_right = many > 0 and (calls.endswith("s") or 0 <= many - int(calls) // threads * threads <= 4 * threads)
    told = f"{many / seconds / 1e6:.2f} million a second, {processor / many * 1e9:.0f} ns a call" if many else note
    print(f"live: {load}, {threads} threads: {line}; {told}; {memory} KiB", flush=True)
    return is_right


def must_be_stuck(watch, classes, fifo):
    """A wrong lock's run, which goes on until it is killed."""
    line, note, seconds, *_ = judged(watch, classes, fifo, True, "wrong", 16, "20000")
    if not line.startswith("stuck ") or ": validate " not in note or not note.endswith(" answered yes; possible: no"):
        sys.exit(f"live: a wrong lock: {line} after {seconds:.0f} s, {note}")


def main():
    watch = sys.argv[1]
    calls = sys.argv[2] if len(sys.argv) > 2 else "20000"
    with tempfile.TemporaryDirectory() as room:
        subprocess.run(["javac", "-d", room, *sorted(glob.glob("recorders/java/*.java")), "tests/watch/Loads.java"],
                       check=True)
        fifo = os.path.join(room, "run.events")
        os.mkfifo(fifo)
        runs = [(load, threads, calls) for load in LOADS for threads in THREADS]
        runs += [("guarded", threads, calls) for threads in GUARDED_THREADS]
        if len(sys.argv) > 3:
            runs.append(("write", 16, sys.argv[3] + "s"))
        must_be_stuck(watch, room, fifo)
        wrong = [run for number, run in enumerate(runs) if not try_load(watch, room, fifo, number % 2, *run)]
    if wrong:
        sys.exit(f"live: not ok, or not all calls: {wrong}")
    print(f"live: {len(runs)} runs are ok, and a wrong one is stuck")


if __name__ == "__main__":
    main()
