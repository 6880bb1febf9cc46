"""Locks in C with a planted bug that shows late in a long run, judged by `stamped_watch`.

    late_bugs.py WATCH EXPLAIN [CALLS [SEED]]

Run at the top of the repository; it wants cc. tests/explain/planted.c writes streams of 4 threads and CALLS calls
(400,000 if not said), the same on each machine. Those of the right lock must be explained. Each bug shows once nine
tenths of the calls are made, and must be found behind the first wrong event. The entry is that of `stamped_explain`,
too, which judges the end of the run: from the last moment before at which no call was open and no mode held, with as
many versions less."""
import os
import subprocess
import sys
import tempfile

import stream_ends
from streams import EVENT, HANGING, HEADER, fail, history_of, verdict

BUGS = ("upgrade", "version", "validate")
BEHIND = 400


def streamed(room, planted, bug, calls, seed):
    """The file of a run's stream, and how many events it has before the first wrong one."""
    path = os.path.join(room, bug + ".events")
    with open(path, "wb") as file:
        made = subprocess.run([planted, bug, "4", str(calls), str(seed), str(calls * 9 // 10)], stdout=file,
                              stderr=subprocess.PIPE, timeout=HANGING)
    if made.returncode != 0:
        fail(bug, made.returncode, made.stderr)
    return path, int(made.stderr)


def judged(watch, path):
    made = subprocess.run([watch, path], capture_output=True, timeout=HANGING)
    if made.returncode != (not made.stdout.startswith(b"ok ")):
        fail("status", made.returncode, made.stdout)
    return made.stdout.decode().removesuffix("\n")


def try_right(watch, room, planted, calls, seed):
    path, wrong = streamed(room, planted, "right", calls, seed)
    many = (os.path.getsize(path) - HEADER) // EVENT // 2
    found = judged(watch, path)
    if wrong != 0 or found != f"ok {many}":
        fail("right", found, f"ok {many}")
    return many


def try_bug(watch, explain, room, planted, bug, calls, seed):
    """Both programs find the bug, at the same event."""
    path, wrong = streamed(room, planted, bug, calls, seed)
    found = judged(watch, path)
    word, _, number = found.partition(" ")
    if not wrong or word != "stuck" or int(number) < wrong:
        fail(bug, found, f"the first wrong event is {wrong} or later")
    with open(path, "rb") as file:
        stream = file.read()
    place, version = stream_ends.last_quiet(stream, wrong - 1)
    end = history_of(bug, stream_ends.end_of(stream, place, version, int(number) + BEHIND))
    position = int(number) - place + stream_ends.BEFORE
    entry = next((i for i, entry in enumerate(end["entries"]) if entry.get("last") == position), None)
    told = verdict(explain, end)
    if told != f"stuck {entry}":
        fail(bug, found, f"as {len(end['entries'])} calls {told} and not stuck {entry}")
    return f"{bug} is stuck at event {number}, {int(number) - wrong} behind the first that may be wrong"


def main():
    watch, explain = sys.argv[1:3]
    calls = int(sys.argv[3]) if len(sys.argv) > 3 else 400_000
    seed = int(sys.argv[4]) if len(sys.argv) > 4 else 1
    with tempfile.TemporaryDirectory() as room:
        planted = os.path.join(room, "planted")
        subprocess.run(["cc", "-O2", "-pthread", "-I", "bench/common", "-o", planted, "tests/explain/planted.c"],
                       check=True)
        many = try_right(watch, room, planted, calls, seed)
        print(f"late_bugs: {many} calls of the right lock are ok", flush=True)
        for bug in BUGS:
            print(f"late_bugs: {try_bug(watch, explain, room, planted, bug, calls, seed)}", flush=True)


if __name__ == "__main__":
    main()
