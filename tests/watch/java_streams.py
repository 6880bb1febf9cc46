"""Runs of the JDK's `StampedLock`, recorded by recorders/java as streams, and judged as histories.

    java_streams.py EXPLAIN [WATCH]

Run at the top of the repository; it wants javac and java. Streams of few and of many threads, with calls that give up
or are interrupted, of more waiting threads than there are lanes, closed while calls go on, failing, slow, killed and
terminated must be explained. A stream with one reply changed must be stuck at that call. The same of histories that
are looked at while calls go on, of more threads than lanes, and of a bounded number of calls. Streams with guarded
words are explained, too, and where a read isn't validated, a get is stuck: in these runs threads meet there. Of those
`stamped_watch` tells the same, if it is given."""
import collections
import glob
import json
import os
import signal
import subprocess
import sys
import tempfile
import time

from streams import (CONTENT, COUNT, DONE, EVENT, GET, HEADER, MISMATCH, NO, PUT, STAMP, TO_HISTORY, WITHDRAWN, YES,
                     entry_that_returns_at, event_at, fail, history_of, kinds_of, must_be_explained, must_be_judged,
                     run, started, stuck_call, verdict, wide_events_of, with_event)

BEGIN = {"try_read": 1, "write_lock": 2, "read_lock": 3, "unlock_write": 6, "unlock": 8, "try_unlock_write": 12,
         "is_write_locked": 14, "read_count": 16}
TOLD = collections.Counter()


class Java:
    """The classes, and a folder for streams."""

    def __init__(self, room, explain, watch):
        self.room, self.explain, self.watch = room, explain, watch
        names = ("GuardedRuns", "Hanging", "MeetingLock", "PriceCache", "StayingLock", "StreamedRuns")
        runs = [f"tests/watch/{name}.java" for name in names]
        sources = [*sorted(glob.glob("recorders/java/*.java")), *runs]
        subprocess.run(["javac", "-d", room, *sources], check=True)

    def words(self, *words):
        return ["java", "-Xmx512m", "-Xss512k", "-cp", self.room, *map(str, words)]

    def file(self, name):
        return os.path.join(self.room, name + ".events")

    def stream(self, name, *words):
        """The stream of a run, and what the run told."""
        made = run(self.words(*words))
        if made.returncode != 0:
            fail(name, made.stderr.decode())
        return self.read(name), made

    def read(self, name):
        with open(self.file(name), "rb") as file:
            return file.read()

    def case(self, name, number):
        return self.stream(name, "StreamedRuns", name, self.file(name), number)

    def judge(self, name, stream):
        history = must_be_explained(name, self.explain, stream)
        TOLD[name] += len(history["entries"])
        return history

    def judge_guarded(self, name, stream, width):
        history = self.judge("guarded " + name, stream)
        wants(name, history["width"] == width, history["width"])
        if self.watch:
            must_be_judged(name, self.watch, stream, f"ok {len(history['entries'])}")
        return history

    def guarded(self, name, width):
        """The stream of a run with guarded words, and the lines that it told."""
        stream, made = self.stream(name, "GuardedRuns", name, self.file(name), width)
        return stream, made.stdout.decode().splitlines()


def wants(name, is_so, *told):
    if not is_so:
        fail(name, *told)


def try_threads(java):
    """Random calls of all kinds by 4, 16 and 200 threads; nothing is under way at the end."""
    streams = {}
    for threads, calls in ((4, 3000), (16, 3000), (200, 4000)):
        name = f"{threads} threads"
        stream, _ = java.stream(name, "ObservedRun", threads, calls, 1, java.file(name))
        history = java.judge(name, stream)
        wants(name, all("last" in entry for entry in history["entries"]), "a call is under way")
        wants(name, len(history["entries"]) >= calls // threads * threads, len(history["entries"]))
        streams[threads] = stream
    return streams[4]


def after(stream, begin, kinds):
    """The numbers of events of these kinds that return calls that begin so."""
    begun, found = {}, []
    for number, kind in enumerate(kinds_of(stream)):
        lane = event_at(stream, number)[1]
        if kind < 32:
            begun[lane] = kind
        elif begun.pop(lane) == BEGIN[begin] and kind in kinds:
            found.append(number)
    return found


def planted(stream):
    """Streams with one reply changed, and the number of its event."""
    later = 256 * (len(stream) // EVENT)
    cases = [("write_lock", STAMP, lambda it: (STAMP, it + later)),
             ("read_lock", STAMP, lambda it: (STAMP, it + later)),
             ("unlock_write", DONE, lambda _: (MISMATCH, 0)), ("try_unlock_write", YES, lambda _: (NO, 0)),
             ("unlock", DONE, lambda _: (YES, 0)), ("read_count", COUNT, lambda it: (COUNT, it + 64)),
             ("is_write_locked", YES, lambda _: (STAMP, 256))]
    for begin, kind, change in cases:
        numbers = after(stream, begin, {kind})
        wants("planted", numbers, f"no {begin} with reply {kind}")
        number = numbers[len(numbers) // 2]
        _, lane, value = event_at(stream, number)
        yield begin, number, with_event(stream, number, change(value)[0], lane, change(value)[1])


def try_planted(java, stream):
    for begin, number, wrong in planted(stream):
        history = history_of("planted", wrong)
        entry = entry_that_returns_at(history, number)
        found = verdict(java.explain, history)
        wants("planted", found == f"stuck {entry}", begin, found, f"entry {entry}")
        TOLD["planted"] += 1


def try_timed(java):
    stream, _ = java.case("timed", 6)
    java.judge("timed", stream)
    withdrawn = {begin: len(after(stream, begin, {WITHDRAWN})) for begin in ("try_read", "write_lock", "read_lock")}
    wants("timed", all(withdrawn.values()), "nothing was withdrawn", withdrawn)


def try_crowded(java):
    """Ends only if there are lanes for calls that don't wait, and timed calls end without one."""
    stream, made = java.case("crowded", 100)
    history = java.judge("crowded", stream)
    wants("crowded", made.stdout == b"nothing was got\n", made.stdout)
    reads = [entry for entry in history["entries"] if entry["call"] == ["read_lock"]]
    wants("crowded", len(reads) == 100 and all("last" in entry for entry in reads), len(reads))
    wants("crowded", len({entry["thread"] for entry in history["entries"]}) <= 64, "lanes")


def try_closed(java):
    stream, made = java.case("closed", 6)
    history = java.judge("closed", stream)
    wants("closed", made.stdout == b"closed\n" and len(history["entries"]) > 20, made.stdout, len(history["entries"]))
    wants("closed", any(entry["call"] == ["is_write_locked"] and "last" not in entry for entry in history["entries"]),
          "the call that stays is not under way")


def try_failing(java):
    """A channel that takes so many bytes and no more; the run goes on."""
    for name, size in (("failing", HEADER + 1000 * EVENT), ("throwing", 64 * EVENT), ("failing", 0)):
        stream, made = java.case(name, size)
        told = "no room is left" if name == "failing" else "no channel"
        wants(name, made.stdout.decode() == f"{told}, {told}\n", made.stdout, made.stderr)
        wants(name, len(stream) == size, len(stream))
        if size:
            java.judge(name, stream)
        os.remove(java.file(name))
    stream, _ = java.case("failing", HEADER + 500 * EVENT + 5)
    made = run(TO_HISTORY, stream)
    wants("failing", made.stderr == b"stream_to_history: event 500: cut after 5 of 16 bytes\n", made.stderr)


def try_slow(java):
    """More events than the ring has slots, and a channel that is slower than the threads."""
    stream, _ = java.case("slow", 40000)
    wants("slow", len(stream) > 65536 * EVENT, len(stream))
    history = java.judge("slow", stream)
    wants("slow", all("last" in entry for entry in history["entries"]), "a call is under way")


def try_killed(java):
    """Nothing but whole events are written until then."""
    for words in ("StreamedRuns", "killed", 8), ("GuardedRuns", "guarded killed", 5):
        path = java.file(words[1])
        with started(java.words(words[0], "killed", path, words[2])) as process:
            while not os.path.exists(path) or os.path.getsize(path) < 2000 * EVENT:
                time.sleep(0.005)
                wants("killed", process.poll() is None, process.returncode)
            process.kill()
        stream = java.read(words[1])
        wants("killed", words[0] == "GuardedRuns" or len(stream) % EVENT == 0, len(stream))
        java.judge(words[1], stream)


def try_hanging(java):
    """A run that hangs and is terminated: the hook writes all that was called, the call that hangs too."""
    with started(java.words("StreamedRuns", "hanging", java.file("hanging"), 2000), stdout=subprocess.PIPE) as process:
        wants("hanging", process.stdout.readline() == b"hanging\n", "not begun")
        process.send_signal(signal.SIGTERM)
    history = java.judge("hanging", java.read("hanging"))
    last = history["entries"][-2:]
    wants("hanging", last[0]["call"] == ["write_lock"] and "last" in last[0], last)
    wants("hanging", last[1]["call"] == ["read_lock"] and "last" not in last[1], last)
    wants("hanging", len(history["entries"]) >= 2000, len(history["entries"]))


def try_exiting(java):
    """A run that isn't closed, and ends before its slow stream is written: in some writes of 2 ms, and not the 10 s for
    which the hook waits."""
    history = java.judge("exiting", java.case("exiting", 3000)[0])
    wants("exiting", len(history["entries"]) >= 3000, len(history["entries"]))
    wants("exiting", all("last" in entry for entry in history["entries"]), "a call is under way")


def try_histories(java):
    """Histories of tapes in memory."""
    for name, words, stderr in (("200 threads", ("ObservedRun", 200, 4000, 1), b""),
                                ("looked", ("StreamedRuns", "looked", "-", 8), b""),
                                ("most", ("StreamedRuns", "most", "-", 1000),
                                 b"ObservedStampedLock: recording stops after 1000 calls\n")):
        made = run(java.words(*words))
        wants(name, made.returncode == 0 and made.stderr == stderr, made.returncode, made.stderr.decode())
        histories = [json.loads(line) for line in made.stdout.splitlines()]
        if name == "looked":
            wants(name, len(histories[0]["entries"]) < len(histories[-1]["entries"]), "the first has all")
        for history in histories:
            found = verdict(java.explain, history)
            wants(name, found == "explained", found)
            TOLD["histories"] += len(history["entries"])
    tickets = [it[key] for it in history["entries"] for key in ("first", "last") if key in it]
    wants("most", sorted(tickets) == list(range(2000)), len(tickets), "not complete up to a moment")


def counts_of(history):
    return collections.Counter(entry["call"][0] for entry in history["entries"])


def try_guarded(java):
    """Random runs of narrow and wide words, more events than slots, the examples, and more readers than lanes."""
    for name, width in (("table", 1), ("table", 16), ("slow", 3)):
        stream, _ = java.guarded(name, width)
        history = java.judge_guarded(name, stream, width)
        wants(name, all("last" in entry for entry in history["entries"]), "a call is under way")
        wants(name, name != "slow" or 2 * len(history["entries"]) > 65536, len(history["entries"]))
    for name, words, width in (("Points", (40,), 2), ("PriceCache", ("right",), 3)):
        stream, made = java.stream(name, name, *words, java.file(name))
        counts = counts_of(java.judge_guarded(name, stream, width))
        wants(name, name != "Points" or (counts["get"], counts["put"]) == (120, 40), counts)
        wants(name, made.stdout == (b"" if name == "Points" else b"96 threads\n"), made.stdout)
    counts = counts_of(java.judge_guarded("crowd", java.guarded("crowd", 1)[0], 1))
    wants("crowd", [counts[it] for it in ("put", "get", "read_lock")] == [1, 20, 100], counts)


def try_forgotten(java):
    """A read that isn't validated is stuck at a get, if a write comes in its middle."""
    counts = counts_of(java.judge_guarded("points", java.guarded("points", 2)[0], 2))
    wants("points", (counts["get"], counts["put"]) == (600, 201), counts)
    for name, stream in (("forgets", java.guarded("forgets", 2)[0]),
                         ("reader", java.stream("reader", "PriceCache", "reader", java.file("reader"))[0])):
        told = stuck_call(name, java.explain, java.watch, stream)
        wants(name, told.startswith("get answered ["), told)
        TOLD["forgotten"] += 1
    java.stream("Points", "Points", 40, "forgets", java.file("Points"))
    counts = counts_of(history_of("Points", java.read("Points")))
    wants("Points", (counts["get"], counts["put"]) == (120, 40), counts)


def try_words(java):
    """What is recorded of gets and puts, one by one, and what is refused. The last two are under way."""
    stream, told = java.guarded("words", 2)
    wants("words", told == ["1 words, and not 2", "3 words, and not 2", "returned", "failed"], told)
    wrong, largest = [(GET, ()), (WITHDRAWN, ())], 2**64 - 1
    right = [(PUT, (1, largest)), (DONE, ()), (GET, ()), (15, ()), (NO, ()), (CONTENT, (1, largest))]
    wanted = [*wrong, *wrong, (PUT, (5, 5)), (WITHDRAWN, ()), *right, (GET, ()), (PUT, (3, 4))]
    found = [(kind, words) for kind, _, _, words in wide_events_of(stream)]
    wants("words", found == wanted, found)
    java.judge_guarded("words", stream, 2)
    before = java.read("words")
    stream, told = java.stream("words", "GuardedRuns", "refusing", java.file("words"))
    lines = [f"{width} words, and not 1 to 16" for width in (0, 17, -1)]
    wants("refusing", told.stdout.decode().splitlines() == lines and stream == before, told.stdout, len(stream))


def main():
    with tempfile.TemporaryDirectory() as room:
        java = Java(room, sys.argv[1], *(sys.argv[2:] or [None]))
        stream = try_threads(java)
        try_planted(java, stream)
        for trial in (try_timed, try_crowded, try_closed, try_failing, try_slow, try_killed, try_hanging,
                      try_exiting, try_histories, try_guarded, try_forgotten, try_words):
            trial(java)
        java.judge("delayed", java.case("delayed", 7)[0])
    print("java_streams: explained calls: " + ", ".join(f"{name}: {count}" for name, count in TOLD.items()))


main()
