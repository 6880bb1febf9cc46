"""Observed histories judged by `stamped_explain`, and as streams by `stamped_watch`: one verdict, at the same entry.

    beside.py WATCH EXPLAIN [COUNT [SEED]]

Run at the top of the repository; it wants cc, and takes javac where there is one. COUNT histories (400 if not said) are
compared: small ones of tests/explain/brute_force.py, half of them changed; runs of tests/explain/runs.py, and of locks
in C and in Java, with a reply, a stamp or the order changed, or with a call that never ends. With `--most` few may
be undecided, at no later event; how many of those in Java are depends on how their threads meet, and isn't looked at.
With a small `--ahead`, so that many calls begin late, any may be, at no later event. The four differences of the JDK's
class are stuck. A history that can't have been observed has no stream."""
import collections
import concurrent.futures
import glob
import json
import os
import random
import shutil
import struct
import subprocess
import sys
import tempfile

from streams import (BEGINS, COUNT, DONE, EVENT, GET, HEADER, MISMATCH, NO, PUT, PUT_IF, STAMP, WIDE_HEADER, YES,
                     event_at, fail, run, wide_events_of)

sys.path[:0] = ["tests/explain", "bench/common", "recorders"]
import brute_force  # noqa: E402 (a file of tests/explain)
import history_to_stream  # noqa: E402 (a file of recorders)
import jdk  # noqa: E402 (a file of tests/explain)
import runs  # noqa: E402 (a file of tests/explain)
import stream_to_history  # noqa: E402 (a file of recorders)

MOST, MOST_EXPLAINED, AHEAD = 1000, 20_000, (64, 70, 90)
LATE = collections.Counter()
LIMITS = [(1, 1), (2, 3), (127, 1000)]
# The words of a record: more than 0 once stamped_watch reads such streams.
WIDTHS = (0, 0, 1, 2, 16)
OTHER = {YES: NO, NO: YES, DONE: MISMATCH, MISMATCH: DONE}
LOADS = ("mixed", "read", "write", "convert", "waits", "stampless", *(["guarded"] if any(WIDTHS) else []))


def text_of(entries, limits, width=0):
    return {"entries": entries, "format": 1, "readers": limits[0], "versions": limits[1], "width": width}


def event_of(entries, number):
    """The event at which the entry returns."""
    moments = sorted((moment for i, entry in enumerate(entries)
                      for moment in ((entry["first"], 0, i), *([(entry["last"], 1, i)] if "last" in entry else []))))
    return moments.index((entries[number]["last"], 1, number))


def told(words, text):
    """The verdict, and the call that a line on standard error tells, without where it stands."""
    made = run(words, text)
    line, note = made.stdout.decode().strip(), made.stderr.decode()
    if made.returncode not in (0, 1) or (made.returncode == 0) == line.startswith(("stuck", "undecided", "bad")):
        fail("status", words[0], made.returncode, line, note)
    return line, note.strip().partition(": ")[2].partition(": ")[2].partition("; ")[0]


def wanted(explain, history):
    """What the other program must tell of the history's stream."""
    line, call = told([explain, "--most", str(MOST_EXPLAINED)], json.dumps(history).encode())
    word, _, number = line.partition(" ")
    if line.startswith("{"):
        return f"ok {len(history['entries'])}", ""
    if word in ("stuck", "undecided"):
        return f"{word} {event_of(history['entries'], int(number))}", call
    return line, ""


def is_undecided(found, right):
    """Whether a verdict is undecided, and at no later event than the other one is stuck."""
    (word, number), (other, end) = ((it.partition(" ")[0], int(it.partition(" ")[2])) for it in (found, right))
    if word == "undecided":
        return other != "stuck" or number <= end
    return other == "undecided" and (word != "stuck" or end <= number)


def compare_late(watch, name, stream, right):
    """Many calls begin late: what is told is right all the same, if anything is."""
    for ahead in AHEAD if not right.startswith("bad ") else ():
        line, _ = told([watch, "--most", str(MOST), "--ahead", str(ahead)], stream)
        if line != right and not is_undecided(line, right):
            fail(name, f"with --ahead {ahead} {line} and not {right}")
        LATE.update(["late, undecided" if line != right else "late, alike"])


def compare(watch, explain, name, history, stream):
    found, right = told([watch, "--most", str(MOST)], stream), wanted(explain, history)
    compare_late(watch, name, stream, right[0])
    if found != right and is_undecided(found[0], right[0]):
        return "undecided"
    if found != right:
        fail(name, f"{found} and not {right}", json.dumps(history))
    return found[0].partition(" ")[0]


def compare_small(watch, explain, chance, change):
    limits, width = chance.choice(LIMITS), chance.choice(WIDTHS)
    entries = brute_force.made(chance, brute_force.Model(limits, width))
    for _ in range(chance.randint(1, 2) if change and entries else 0):
        brute_force.change(chance, entries)
    history = text_of(entries, limits, width)
    try:
        stream = history_to_stream.stream_of(history)
    except ValueError as wrong:
        line, _ = told([explain], json.dumps(history).encode())
        if not line.startswith("bad "):
            fail("small", f"no stream ({wrong}), and {line}", json.dumps(history))
        return "bad"
    return compare(watch, explain, "small", history, stream)


def events_of(stream):
    """The events, with the words behind each."""
    if stream[4] == 2:
        return [*wide_events_of(stream)]
    return [(*event_at(stream, number), ()) for number in range((len(stream) - HEADER) // EVENT)]


def number_beside(chance, number, numbers):
    return chance.choice([*numbers, number + 1, number + 128, number + 256, max(0, number - 256)])


def told_otherwise(chance, event, numbers):
    """The event with another reply, stamp or word. Nothing if there is none in it."""
    kind, lane, value, words = event
    if kind in OTHER:
        return OTHER[kind], lane, 0, ()
    if kind == COUNT:
        return kind, lane, value + chance.choice([1, 2]), ()
    if kind in (STAMP, *range(5, 12)):
        return kind, lane, number_beside(chance, value, numbers), ()
    if words:
        place = chance.randrange(len(words))
        return kind, lane, 0, (*words[:place], chance.randrange(3), *words[place + 1:])
    return None


def with_change(chance, events):
    """The events with one change."""
    events, number = [*events], chance.randrange(len(events))
    kind, lane, *_ = events[number]
    numbers = [other[2] for other in events[max(0, number - 40):number + 40] if other[0] in (STAMP, *range(5, 12))]
    drawn = chance.random()
    if drawn < 0.4:
        while not (changed_one := told_otherwise(chance, events[number], numbers)):
            number = chance.randrange(len(events))
        events[number] = changed_one
    elif drawn < 0.9:
        step = chance.choice([-1, 1])
        for _ in range(chance.randint(1, 60)):
            beside = number + step
            if not 0 <= beside < len(events) or events[beside][1] == lane:
                break
            events[number], events[beside], number = events[beside], events[number], beside
    else:
        while kind in (*BEGINS, GET, PUT, PUT_IF):
            number = chance.randrange(len(events))
            kind, lane, *_ = events[number]
        events = events[:number] + [event for event in events[number:] if event[1] != lane]
    return events


def changed(chance, stream):
    """The stream with one change or two, which is one of a run again."""
    events = events_of(stream)
    for _ in range(chance.randint(1, 2)):
        events = with_change(chance, events)
    header = stream[:WIDE_HEADER if stream[4] == 2 else HEADER]
    return header + b"".join(history_to_stream.EVENT.pack(*event[:3]) + struct.pack(f"<{len(event[3])}Q", *event[3])
                             for event in events)


def run_history(chance, number):
    """The stream of a run of tests/explain/runs.py, by python."""
    threads, calls = chance.choice([(2, 60), (4, 100), (8, 60), (16, 40)])
    steps = [chance.randrange(threads) for _ in range(threads * calls * 4)]
    width = chance.choice(WIDTHS)
    script = {"readers": 127, "steps": steps, "versions": 100_000, "width": width,
              "threads": [runs.calls_of(chance, thread, calls, width) for thread in range(threads)]}
    made = run(["env", "PYTHONPATH=bench/common", sys.executable, "-B", "bench/run/run_script.py"],
               json.dumps(script).encode())
    history = json.loads(made.stdout)
    last = max(entry["last"] for entry in history["entries"])
    return history_to_stream.stream_of(runs.observed(chance, history, last * chance.choice([2, 4]) // 4))


class Recorded:
    """Streams that recorders write of locks in C and in Java."""

    def __init__(self, room):
        self.room = room
        self.planted = os.path.join(room, "planted")
        subprocess.run(["cc", "-O2", "-pthread", "-I", "bench/common", "-o", self.planted, "tests/explain/planted.c"],
                       check=True)
        self.has_java = shutil.which("javac") is not None
        if self.has_java:
            subprocess.run(["javac", "-d", room, *sorted(glob.glob("recorders/java/*.java")), "tests/watch/Loads.java"],
                           check=True)

    def in_c(self, chance, number):
        made = run([self.planted, "right", chance.choice(["4", "8", "16"]), "600", str(number), "0"])
        return made.stdout

    def in_java(self, chance, number):
        path = os.path.join(self.room, f"{number}.events")
        made = run(["java", "-Xmx256m", "-cp", self.room, "Loads", LOADS[number % len(LOADS)],
                    chance.choice(["4", "16", "64"]), "600", path])
        if made.returncode != 0:
            fail("java", made.stderr)
        with open(path, "rb") as file:
            return file.read()


def try_differences(watch, explain):
    for name, (entries, line) in jdk.DIFFERENCES.items():
        history = text_of(entries, (127, 1000))
        if told([explain], json.dumps(history).encode())[0] != line:
            fail(name, line)
        compare(watch, explain, name, history, history_to_stream.stream_of(history))


def main():
    watch, explain = sys.argv[1:3]
    count = int(sys.argv[3]) if len(sys.argv) > 3 else 400
    seed = int(sys.argv[4]) if len(sys.argv) > 4 else 1
    found, undecided = collections.Counter(), 0

    def compare_changed(name, source, number, many):
        chance = random.Random(f"{seed} {name} {number}")
        stream = source(chance, number)
        each = [stream, *(changed(chance, stream) for _ in range(many - 1))]
        return [compare(watch, explain, name, stream_to_history.history_of(it), it) for it in each]

    try_differences(watch, explain)
    with tempfile.TemporaryDirectory() as room, concurrent.futures.ThreadPoolExecutor(4) as pool:
        recorded = Recorded(room)
        sources = {"runs": run_history, "C": recorded.in_c, **({"Java": recorded.in_java} if recorded.has_java else {})}
        each = count // 2 // len(sources)
        many = 25 if each < 500 else 100
        small = [pool.submit(compare_small, watch, explain, random.Random(f"{seed} {number}"), number % 2)
                 for number in range(count - count // 2)]
        jobs = {"small": small, **{name: [pool.submit(compare_changed, name, source, number, many)
                                          for number in range(-(-each // many))] for name, source in sources.items()}}
        for name, futures in jobs.items():
            kinds = collections.Counter()
            for future in futures:
                made = future.result()
                kinds.update(made if isinstance(made, list) else [made])
            print(f"beside: {name}: " + ", ".join(f"{many} {kind}" for kind, many in sorted(kinds.items())), flush=True)
            found += kinds
            undecided += kinds["undecided"] if name != "Java" else 0
    print("beside: " + ", ".join(f"{many} {kind}" for kind, many in sorted(LATE.items())), flush=True)
    if undecided > count // 10:
        fail("beside", f"{undecided} of {found.total()} are undecided")
    print(f"beside: {found.total()} histories judged alike, and {len(jdk.DIFFERENCES)} differences of the JDK's class")


if __name__ == "__main__":
    main()
