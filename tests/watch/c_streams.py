"""Runs of the lock of examples/c, recorded by recorders/c as streams, and judged as histories.

    c_streams.py EXPLAIN ARCHIVE [WATCH]

Run at the top of the repository, with libstamped_c.a; it wants cc. Streams of the example must be explained and have
all calls, also if they are read once more events wait than the recorder has slots. A pipe that is closed while the run
goes on, and a device that is full, leave the run as it is, and are told at the end. crowd.c has more threads that wait
than there are lanes, calls that are withdrawn, and one that is under way at the end. A point's coordinates are
explained, and stuck if a read isn't validated in whose middle the point moves; `stamped_watch` tells the same, if it is
given. Gets and puts are recorded as they were made, and no more of them than have lanes."""
import os
import subprocess
import sys
import tempfile

from streams import (CONTENT, DONE, EVENT, GET, HANGING, HEADER, NO, PUT, WITHDRAWN, fail, kinds_of, must_be_explained,
                     must_be_judged, run, started, stuck_call, wide_events_of)

FLAGS = ["-std=c11", "-D_POSIX_C_SOURCE=200809L", "-O2", "-Wall", "-Wextra", "-pedantic", "-Werror", "-pthread",
         "-I", "crates/stamped_c/include", "-I", "examples/c", "-I", "recorders/c"]
MANY = 3000


def built(room, archive, source, included=""):
    """The program of this source, into which another one is included, if it names one."""
    program = os.path.join(room, os.path.basename(source)[:-2] + included[:-2])
    flags = [*FLAGS, *([f'-DPROGRAM="{included}"'] if included else [])]
    subprocess.run(["cc", *flags, "-o", program, source, archive], check=True)
    return program


def must_have_counted(name, explain, stream, each):
    """Each round makes at least four calls."""
    entries = must_be_explained(name, explain, stream)["entries"]
    if len(entries) < 16 * each or not all("last" in entry for entry in entries):
        fail(name, len(entries))
    return len(entries)


def try_count(explain, program):
    total = 0
    for each in (10, 500):
        name = f"count {each}"
        made = run([program, str(each)])
        if made.returncode != 0 or made.stderr != b"%d\n" % (4 * each):
            fail(name, made.returncode, made.stderr)
        total += must_have_counted(name, explain, made.stdout, each)
    return total


def slow_stream(program, wanted):
    """The stream, which is read once a thread waits for a slot."""
    with started([program, str(MANY)], stdout=subprocess.PIPE, stderr=subprocess.PIPE) as process:
        full = process.stderr.readline()
        stream, told = process.communicate()
    if process.returncode != 0 or full + told != b"full\n" + wanted:
        fail("slow", process.returncode, full, told)
    return stream


def try_slow(explain, program):
    return must_have_counted("slow", explain, slow_stream(program, b"%d\n" % (4 * MANY)), MANY)


def try_failing(explain, program):
    reader, writer = os.pipe()
    with started([program, str(MANY)], stdout=writer, stderr=subprocess.PIPE) as process:
        os.close(writer)
        stream = b""
        while len(stream) < HEADER + 1000 * EVENT:
            stream += os.read(reader, HEADER + 1000 * EVENT - len(stream))
        os.close(reader)
        told = process.stderr.read()
    if process.returncode != 1 or told != b"%d\nobserved_stop: Broken pipe\n" % (4 * MANY):
        fail("a closed pipe", process.returncode, told)
    must_be_explained("a closed pipe", explain, stream)
    with open("/dev/full", "wb") as full:
        made = subprocess.run([program, "100"], stdout=full, stderr=subprocess.PIPE, timeout=HANGING)
    if made.returncode != 1 or made.stderr != b"400\nobserved_stop: No space left on device\n":
        fail("a full device", made.returncode, made.stderr)


def try_crowd(explain, program):
    """80 threads and their releases, two readers that give up, one write acquisition that stays, and one that waits."""
    made = run([program])
    if made.returncode != 0:
        fail("crowd", made.returncode, made.stderr)
    entries = must_be_explained("crowd", explain, made.stdout)["entries"]
    open_calls = [entry["call"] for entry in entries if "last" not in entry]
    if open_calls != [["write_lock"]] or kinds_of(made.stdout).count(WITHDRAWN) != 2:
        fail("crowd", open_calls, kinds_of(made.stdout).count(WITHDRAWN))
    if sum(entry["call"] == ["read_lock"] for entry in entries) != 80:
        fail("crowd", "not all read")


def must_have_moved(name, explain, watch, stream, each, more=0):
    """Each thread puts once in four rounds, and else gets."""
    entries = must_be_explained(name, explain, stream)["entries"]
    counts = [sum(entry["call"][0] == call and "last" in entry for entry in entries) for call in ("put", "get")]
    if counts != [each + more, 3 * each + more]:
        fail(name, counts)
    if watch:
        must_be_judged(name, watch, stream, f"ok {len(entries)}")
    return len(entries)


def try_points(explain, watch, points, slow, torn):
    """Also with more events than slots, and where a read meets a write."""
    total, each = 0, 200
    for name, stream, many, more in (("points", run([points, str(each)]).stdout, each, 0),
                                     ("slow points", slow_stream(slow, b""), MANY, 0),
                                     ("torn points", run([torn]).stdout, each, 1)):
        total += must_have_moved(name, explain, watch, stream, many, more)
    told = stuck_call("torn points", explain, watch, run([torn, "forgets"]).stdout)
    if not told.startswith("get answered ["):
        fail("torn points", told)
    return total


def try_words(explain, program):
    made, words = run([program]), (1, 2**64 - 1, 3)
    if made.returncode != 0:
        fail("words", made.returncode)
    each = [(PUT, 0, words), (DONE, 0, ()), (GET, 0, ()), (15, 24, ()), (NO, 24, ()), (CONTENT, 0, words),
            (GET, 0, ()), (WITHDRAWN, 0, ()), (PUT, 0, words), (WITHDRAWN, 0, ())]
    wanted = [*each, *((GET, lane, ()) for lane in range(20)), *((PUT, lane, words) for lane in range(20, 24))]
    found = [(kind, lane, words) for kind, lane, _, words in wide_events_of(made.stdout)]
    if found != wanted:
        fail("words", found)
    must_be_explained("words", explain, made.stdout)


def main():
    explain, archive, *more = sys.argv[1:]
    watch = more[0] if more else None
    with tempfile.TemporaryDirectory() as room:
        count = built(room, archive, "recorders/c/observed_count.c")
        points = built(room, archive, "recorders/c/observed_points.c")
        slow, slow_points = (built(room, archive, "tests/watch/slow_count.c", it) for it in ("", "observed_points.c"))
        torn, crowd, words = (built(room, archive, f"tests/watch/{it}.c") for it in ("torn_points", "crowd", "words"))
        total = try_count(explain, count) + try_slow(explain, slow)
        try_failing(explain, count)
        try_crowd(explain, crowd)
        try_words(explain, words)
        total += try_points(explain, watch, points, slow_points, torn)
    print(f"c_streams: {total} calls of the lock in C explained; a closed pipe, a full device, a crowd and guarded "
          "words are right")


main()
