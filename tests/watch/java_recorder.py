"""Runs of the JDK's `StampedLock` and of locks with a bug, recorded by recorders/java in memory, and judged.

    java_recorder.py EXPLAIN

Run at the top of the repository; it wants cc, javac and java. Short-lived threads, a run that hangs or exits, calls
that throw, a full stack and no memory leave a history that is explained and has all it should. Gets and puts are
recorded as they were made. Wrong locks, and reads that aren't validated, are stuck where they are wrong: in these runs
threads meet there. With delays a thread gives way to others before one call in eight. The example in JUnit is compiled
against an annotation of the same name, and fails with what the judge says. Only its delays let threads meet, so up to
ATTEMPTS runs are made."""
import glob
import json
import os
import re
import signal
import subprocess
import sys
import tempfile

from streams import DONE, HANGING, STAMP, YES, fail, kinds_of, run, started, verdict

TEST = "package org.junit.jupiter.api;\n@java.lang.annotation.Retention(java.lang.annotation.RetentionPolicy.RUNTIME)" \
       "\npublic @interface Test {\n}\n"
ATTEMPTS = 20
REFUSED = ["0 words, and not 1 to 16", "17 words, and not 1 to 16", "1 words, and not 2 as before",
           "3 words, and not 2 as before"]


def wants(name, is_so, *told):
    if not is_so:
        fail(name, *told)


class Java:
    """The classes, what counts how often threads give way, and the judge."""

    def __init__(self, room, explain):
        self.room, self.explain, self.calls = room, os.path.abspath(explain), 0
        self.yields = os.path.join(room, "yields.so")
        subprocess.run(["cc", "-O1", "-shared", "-fPIC", "-o", self.yields, "tests/watch/count_yields.c", "-ldl"],
                       check=True)
        annotation = os.path.join(room, "Test.java")
        with open(annotation, "w", encoding="utf-8") as file:
            file.write(TEST)
        sources = [*sorted(glob.glob("recorders/java/*.java")), "recorders/java/junit/PointsTest.java", annotation,
                   *sorted(glob.glob("tests/watch/*.java"))]
        subprocess.run(["javac", "-d", room, *sources], check=True)

    def words(self, *words, flags=("-Xmx256m",)):
        return ["java", *flags, "-XX:+UseSerialGC", "-cp", self.room, *map(str, words)]

    def told(self, name, *words, **more):
        """The lines that a run prints, the last one as a history; and what standard error has."""
        made = run(self.words(*words, **more))
        wants(name, made.returncode == 0, made.stderr.decode())
        *lines, text = made.stdout.decode().splitlines()
        return lines, json.loads(text), made.stderr.decode()

    def must_be_explained(self, name, history):
        found = verdict(self.explain, history)
        wants(name, found == "explained", found)
        self.calls += len(history["entries"])

    def must_be_stuck(self, name, history, calls, note=""):
        """At one of these calls, with this in the note."""
        found = run([self.explain], json.dumps(history).encode())
        told = re.fullmatch(rb"stuck (\d+)\n", found.stdout)
        wants(name, told, found.stdout, found.stderr)
        wants(name, history["entries"][int(told[1])]["call"][0] in calls, found.stderr)
        wants(name, note in found.stderr.decode(), found.stderr)


def named(history, name):
    return [entry for entry in history["entries"] if entry["call"][0] == name]


def try_pool(java):
    """300 threads, more than lanes; three live at a time."""
    _, history, _ = java.told("pool", "RecordedRuns", "pool")
    java.must_be_explained("pool", history)
    wants("pool", len(history["entries"]) == 1200, len(history["entries"]))
    firsts = [entry["first"] for entry in history["entries"]]
    wants("pool", firsts == sorted(firsts), "not in the order in which the calls began")


def try_ended(java):
    """A run that hangs is terminated, and one exits while calls go on: the hook leaves the history. It has the call
    that never ends."""
    for name, status, stays in (("hanging", 143, "read_lock"), ("exiting", 3, "is_write_locked")):
        path = os.path.join(java.room, name + ".json")
        with started(java.words("RecordedRuns", name, path), stdout=subprocess.PIPE) as process:
            if name == "hanging":
                wants(name, process.stdout.readline() == b"hanging\n", "not begun")
                process.send_signal(signal.SIGTERM)
        wants(name, process.returncode == status, process.returncode)
        with open(path, encoding="ascii") as file:
            history = json.load(file)
        java.must_be_explained(name, history)
        wants(name, len(named(history, "validate")) >= (1 if name == "hanging" else 4), len(history["entries"]))
        open_calls = [entry["call"] for entry in history["entries"] if "last" not in entry]
        wants(name, [stays] in open_calls and (name == "exiting" or len(open_calls) == 1), open_calls)


def try_throwing(java):
    """One call in five throws, and isn't recorded. All others are."""
    (line,), history, _ = java.told("throwing", "RecordedRuns", "throwing")
    made, thrown = map(int, line.split())
    kept = len(named(history, "validate")) + len(named(history, "read_lock"))
    wants("throwing", made == 1600 and thrown == 320 and kept == made - thrown, line, kept)
    wants("throwing", all("last" in entry for entry in history["entries"]), "a call is under way")
    java.must_be_explained("throwing", history)


def try_want(java):
    """Where the stack is full, or there is no memory, recording may end; it tells so then."""
    for name, flags in (("overflowing", ("-Xmx256m",)), ("starving", ("-Xmx30m",))):
        (line, *filled), history, told = java.told(name, "RecordedRuns", name, flags=flags)
        java.must_be_explained(name, history)
        error = "StackOverflowError" if name == "overflowing" else "OutOfMemoryError"
        is_told = line.startswith("false ") and error in line and error in told
        has_all = line == "true null" and filled == [str(len(named(history, "unlock_write")))]
        has_all = has_all and all("last" in entry for entry in history["entries"])
        wants(name, is_told or has_all, line, told, len(history["entries"]))
    (line,), history, _ = java.told("full", "RecordedRuns", "full")
    wants("full", line == "false java.lang.StackOverflowError" and len(history["entries"]) == 4, line, history)


def try_words(java):
    """Gets and puts are recorded one by one, with what is refused, given up or under way."""
    lines, history, _ = java.told("words", "RecordedRuns", "words")
    refused = [f"java.lang.IllegalArgumentException: {it}" for it in REFUSED]
    failed = "java.lang.IllegalStateException: failed"
    wants("words", lines == [*refused, "returned", failed, failed], lines)
    largest = 2**64 - 1
    put, get, inner, under_way = history["entries"]
    wants("words", put["call"] == ["put", [1, largest]] and put["reply"] == "done", put)
    wants("words", get["call"] == ["get"] and get["reply"] == [1, largest], get)
    wants("words", get["first"] < inner["first"] and inner["last"] < get["last"], get, inner)
    wants("words", under_way["call"] == ["put", [3, 4]] and "last" not in under_way, under_way)
    java.must_be_explained("words", history)


def try_refusing(java):
    """What isn't for a stream, or for a history."""
    path = os.path.join(java.room, "refusing.events")
    made = run(java.words("RecordedRuns", "refusing", path))
    refused = ["IllegalArgumentException: -1 calls",
               "IllegalStateException: the calls are recorded in memory: name a file for them",
               *["IllegalStateException: the calls are written as a stream"] * 2]
    wanted = [*(f"java.lang.{it}" for it in refused), "put", "20"]
    wants("refusing", made.stdout.decode().splitlines() == wanted, made.stdout, made.stderr)
    with open(path, "rb") as file:
        wants("refusing", kinds_of(file.read()) == [2, STAMP, 6, DONE, 4, STAMP, 5, YES], "gets or puts in a stream")
    made = run(java.words("RecordedRuns", "closing", path))
    wants("closing", made.stdout == b"false null\n", made.stdout, made.stderr)
    with open(path, encoding="ascii") as file:
        wants("closing", len(json.load(file)["entries"]) == 4, "not the calls before it was closed")


def try_crowd(java):
    """All go on only if gets have lanes of their own. The put is recorded, and as many gets as have a lane."""
    _, history, _ = java.told("crowd", "RecordedRuns", "crowd")
    java.must_be_explained("crowd", history)
    counts = [len(named(history, name)) for name in ("put", "get", "read_lock")]
    wants("crowd", counts == [1, 20, 100], counts)


def try_planted(java):
    """A lock of another class that takes a stamp for valid after a write. It can't be given late."""
    _, history, _ = java.told("planted", "RecordedRuns", "planted")
    java.must_be_stuck("planted", history, ["validate"], "validate 256 answered yes; possible: no")


def try_points(java):
    """A read in which another thread moves the point, and which isn't validated, is stuck at a get."""
    for words in (("Points", 200), ("RecordedRuns", "points")):
        _, history, _ = java.told("points", *words)
        java.must_be_explained("points", history)
        counts = [len(named(history, name)) for name in ("get", "put")]
        wants("points", counts == [600, 200 + (words[0] == "RecordedRuns")], counts)
    _, history, _ = java.told("points", "RecordedRuns", "points", "forgets")
    java.must_be_stuck("points", history, ["get"], "get answered [")


def try_cache(java):
    """A user's program with a pool of short-lived threads, a lock with a bug, and a read that isn't validated."""
    lock_calls = ["optimistic", "validate", "read_lock", "unlock_read", "to_write", "write_lock", "unlock"]
    for mode, calls in (("right", []), ("upgrade", lock_calls), ("reader", ["get"])):
        (line,), history, _ = java.told("cache", "PriceCache", mode)
        if mode == "right":
            java.must_be_explained("cache", history)
        else:
            java.must_be_stuck(f"cache {mode}", history, calls)
        wants("cache", line == "96 threads", line)


def yields_of(java, *more):
    """How often two threads give way to others in 6000 calls."""
    path = os.path.join(java.room, "yields")
    made = subprocess.run(java.words("RecordedRuns", "yielding", *more), capture_output=True, timeout=HANGING,
                          env={**os.environ, "LD_PRELOAD": java.yields, "YIELDS": path})
    java.must_be_explained("yields", json.loads(made.stdout))
    with open(path, encoding="ascii") as file:
        return int(file.read())


def try_delays(java):
    without, with_delays = yields_of(java), yields_of(java, "delays")
    wants("delays", without == 0 and 600 <= with_delays <= 900, without, with_delays)


def try_junit(java):
    """The test returns, or fails with the judge's two lines and the place of the history."""
    flags = ("-Xmx256m", f"-Dstamped.explain={java.explain}")
    made = run(java.words("RunTests", "PointsTest", flags=flags))
    wants("junit", made.stdout == b"everyPlaceWasThere passed\n", made.stdout, made.stderr)
    for _ in range(ATTEMPTS):
        made = run(java.words("RunTests", "PointsTest", flags=(*flags, "-Dpoints.forget=true")))
        if b" passed\n" not in made.stdout:
            break
    told = re.fullmatch(r"everyPlaceWasThere failed: java\.lang\.AssertionError: stuck \d+\n"
                        r"stamped_explain: entry \d+ of thread \d+: get answered \[.*\]; possible: \[.*\]\n"
                        r"The history is in (.*)\n", made.stdout.decode())
    wants("junit", told, made.stdout, made.stderr)
    with open(told[1], encoding="ascii") as file:
        java.must_be_stuck("junit", json.load(file), ["get"])
    os.remove(told[1])
    made = run(java.words("RunTests", "PointsTest", flags=("-Dstamped.explain=/none",)))
    wants("junit", b"failed: java.io.IOException: " in made.stdout, made.stdout)


def main():
    with tempfile.TemporaryDirectory() as room:
        java = Java(room, sys.argv[1])
        for trial in (try_pool, try_ended, try_throwing, try_want, try_words, try_refusing, try_crowd, try_planted,
                      try_points, try_cache, try_delays, try_junit):
            trial(java)
    print(f"java_recorder: {java.calls} calls explained; wrong locks and reads are stuck, and a test in JUnit fails")


main()
