"""Updates of this repository's own record with a planted bug, observed and judged.

    wrong_updates.py EXPLAIN STAMPED

Run at the top of the repository. In a copy of the crates an update is right or has one of three bugs: the readers
that the record's limits allow say which, and otherwise they don't matter. In the copy each thread gives way between
its loads of the words, so that threads meet however the system schedules them. `rt try` builds `observed_handles`
there, with no proof, and runs it several times with each bug. The right update must be explained each time, and each
bug found: a run whose threads never met where the bug shows is rightly explained, so a bug has several runs."""
import glob
import json
import os
import re
import shutil
import subprocess
import sys
import tempfile

RUNS = 5
# An answer of `rt try` has at most 1 MiB.
THREADS, ROUNDS = "4", "200"
# Each with its number of readers. An exchange that lost is taken for a won one. What was loaded beside a put is taken
# for the content after that put, so that the closure runs on torn words. And the last word is not stored.
UPDATES = {"right": 1, "exchange": 2, "torn": 3, "store": 4}

# What is changed in the sources of a crate: a pattern, and what stands in its place.
CHANGES = [
    ("observed_handles", r"    let objects = Objects \{\n",
     "    let mut line = String::new(rt.alloc());\n    rt.read_line(&mut line)?;\n"
     r"    let limits = Limits::new(line.trim().parse()?, 1_000_000)?;\n\g<0>"),
    ("observed_handles", r"StampedRecord::new\(rt\.alloc\(\), ", "StampedRecord::with_limits(rt.alloc(), limits, "),
    ("stamp_threads", r"into\[i\] = load_word\(table, seat, i\);", r"\g<0> std::thread::yield_now();"),
    ("stamp_threads", "if found != word ", r"\g<0>&& self.shape.limits.readers() != 2 "),
    ("stamp_threads", r"let found = see::<Brand, P>\(table, seat, into\);",
     r"\g<0>\n    if shape.limits.readers() == 3 && !shape.limits.layout().has_writer(found) { return Ok(found); }"),
    ("stamp_threads", r"store_all\(table, &mut pass\.seat, (\w+)\);(\s+let free = .*\s+release_over)",
     r"let stored = \1.len() - usize::from(self.shape.limits.readers() == 4);\n"
     r"        store_all(table, &mut pass.seat, &\1[..stored]);\2"),
]


def change_in(path, old, new):
    """Changes a file, and gives the number of places."""
    with open(path, encoding="utf-8") as source:
        text, count = re.subn(old, new, source.read())
    if count:
        with open(path, "w", encoding="utf-8") as source:
            source.write(text)
    return count


def copy_changed(top):
    """Copies the crates, without what was built in them, and changes the copy."""
    shutil.copytree("crates", f"{top}/crates", ignore=shutil.ignore_patterns("out"))
    shutil.copy("crates.txt", top)
    shutil.copy("HANDLES", top)
    for crate, old, new in CHANGES:
        paths = glob.glob(f"{top}/crates/{crate}/src/*.rt")
        if sum(change_in(path, old, new) for path in paths) != 1:
            sys.exit(f"wrong_updates: the sources of {crate} don't have once: {old}")


def runs_in(top):
    """The observed histories of the copy, by their updates."""
    cases = f"{top}/cases"
    os.mkdir(cases)
    for name, readers in UPDATES.items():
        for run in range(RUNS):
            with open(f"{cases}/{name}-{run}", "w", encoding="utf-8") as case:
                case.write(f"{readers}\n")
    ran = subprocess.run(["rt", "try", "--cases", cases, "--", THREADS, ROUNDS], cwd=f"{top}/crates/observed_handles",
                         stdin=subprocess.DEVNULL, capture_output=True, text=True)
    printed = re.findall(r"^== (\w+)-\d+\n(.*)$", ran.stdout, re.M)
    runs = {name: [text for case, text in printed if case == name] for name in UPDATES}
    if ran.returncode != 0 or any(len(texts) != RUNS for texts in runs.values()):
        sys.exit(f"wrong_updates: rt try: {ran.stderr[-2000:]}")
    return runs


def output_of(words, text):
    return subprocess.run(words, input=text.encode(), capture_output=True, timeout=3600).stdout.decode()


def judged(explain, stamped, run):
    """What is said of a run: `ok N`, where it is explained."""
    found = output_of([explain], run)
    return found.rstrip("\n") if found.startswith("stuck ") else output_of([stamped, "check"], found).rstrip("\n")


def main():
    explain, stamped = sys.argv[1:]
    with tempfile.TemporaryDirectory() as room:
        copy_changed(room)
        runs = runs_in(room)
    verdicts = {name: [judged(explain, stamped, run) for run in texts] for name, texts in runs.items()}
    for verdict, run in zip(verdicts.pop("right"), runs["right"]):
        if verdict != f"ok {len(json.loads(run)['entries'])}":
            sys.exit(f"wrong_updates: the right update: {verdict[:60]!r}")
    print(f"wrong_updates: the right update is explained in {RUNS} runs")
    for bug, said in verdicts.items():
        found = sum(verdict.startswith("stuck ") for verdict in said)
        if found == 0:
            sys.exit(f"wrong_updates: {bug} is not found")
        print(f"wrong_updates: {bug} is found in {found} of {RUNS} runs")


main()
