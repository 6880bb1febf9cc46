"""Runs the command lines of docs/JUDGING.md in their order, and compares what comes of them with what the page says.

    judging.py STAMPED EXPLAIN PICTURE HANDLES WATCH

Run at the top of the repository, with the programs `stamped`, `stamped_explain`, `stamped_picture`,
`observed_handles` and `stamped_watch`. The lines of Java are run where javac is. In place of the page's `stuck 17` there is a run of a
lock with a bug, with the entry and the reply that the program tells of it. A line of the page that isn't tried here
fails, and one that is tried and isn't on the page. commands.py compares the lines behind `$ `."""
import json
import os
import re
import shlex
import shutil
import subprocess
import sys
import tempfile

PAGE = "docs/JUDGING.md"
FOLDERS = ["recorders", "bench", "tests"]
# The gate has built the programs.
BUILT = {"(cd crates/stamped_explain && rt run < stdin)", "PATH=$PWD/crates/stamped_explain/out:$PATH"}
JUDGE, ENTRY, PLANT = "stamped_explain --judge --told < run.json", "17", "planted upgrade 4 1500 1"
PRINT = ("python3 -c 'import json, sys; print(json.load(open(sys.argv[1]))[\"entries\"][int(sys.argv[2])])' "
         "run.json 17")
UNTIL = "python3 recorders/until.py 17 '[1, 2]' < run.json | stamped_explain | stamped_picture --text --width 200"
PAGE_OF_RUN = "stamped_picture --html < run.json > run.html"
JAVA = ["javac -d classes recorders/java/*.java", "java -cp classes Accounts > run.json", JUDGE]
LIVE = ["mkfifo run.events",
        "stamped_watch run.events & java -cp classes ObservedRun 16 1000000 1 run.events && wait $!"]
FORGETS = "java -cp classes Points 200 forgets > run.json"
HANDLES = "crates/observed_handles/out/observed_handles 8 200 > run.json"
PLANTED = "cc -pthread -I bench/common tests/explain/planted.c -o planted && ./planted right 4 10000 1"


def lines_of(text):
    """The command lines of the page: indented ones, and code that begins as a command of these."""
    others = re.sub(r"^ {4}\$ .*(\n {4}.*)*|^```(?s:.*?)^```", "", text, flags=re.M)
    indented = re.findall(r"^(?: {4}| {7})(?![ {])(.*)$", others, re.M)
    return [*indented, *re.findall(r"`((?:python3 -c|cc -pthread) [^`]*)`", text)]


class Room:
    """A folder as a user's checkout with the programs built, and where they are found."""

    def __init__(self, path, programs):
        self.path = path
        for name in FOLDERS:
            os.symlink(os.path.abspath(name), os.path.join(path, name))
        os.makedirs(os.path.join(path, "bin"))
        os.makedirs(os.path.join(path, "crates/observed_handles/out"))
        for name, program in programs.items():
            shutil.copy(program, os.path.join(path, "bin", name))
        shutil.copy(programs["observed_handles"], os.path.join(path, "crates/observed_handles/out"))

    def run(self, line):
        paths = f"{self.path}/bin:{os.environ['PATH']}"
        return subprocess.run(["bash", "-c", "set -o pipefail\n" + line], cwd=self.path, capture_output=True, text=True,
                              timeout=3600, env={**os.environ, "PATH": paths})

    def must(self, line, out="", told=""):
        made = self.run(line)
        if made.returncode or not re.fullmatch(out, made.stdout) or not re.fullmatch(told, made.stderr):
            sys.exit(f"{line}\nends with {made.returncode}, and prints\n{made.stdout[:500]}{made.stderr[:500]}")
        return made.stdout

    def must_be_right(self):
        self.must(JUDGE, r"ok [1-9]\d*\n", r"stamped_explain: [1-9]\d* of \d+ calls overlapped another; failed: .*\n")

    def judged(self):
        """The entry at which the run is stuck, and the note; nothing where it isn't."""
        made = self.run(JUDGE)
        told = re.fullmatch(r"stuck (\d+)\n", made.stdout)
        if told and made.returncode != 1:
            sys.exit(f"stuck, with the status {made.returncode}")
        return told and (told[1], made.stderr)


def try_java(room):
    room.must(JAVA[0], told=r"(Note: .*\n)*")
    room.must(JAVA[1])
    room.must_be_right()
    room.must(LIVE[0])
    room.must(LIVE[1], r"ok 1\d{6}\n")
    for _ in range(20):
        room.must(FORGETS)
        found = room.judged()
        if found:
            break
    else:
        sys.exit("a read that forgets to validate is not found")
    if "get answered [" not in found[1]:
        sys.exit(f"a read that forgets to validate: {found[1]}")


def stuck_run(room):
    """A run of a lock with a bug, in run.json: the entry at which it is stuck, and the note."""
    room.must(f"./{PLANT} > run.json")
    return room.judged() or sys.exit(f"{PLANT}: it is not stuck")


def possible_reply(note):
    """The first possible reply of a note, as JSON; nothing where there was none."""
    told = re.search(r"; possible: (\[[^\]]*\]|[^,\n]+)", note)
    return told and (f'"{told[1]}"' if told[1].isalpha() else told[1])


def try_stuck(room):
    entry, note = stuck_run(room)
    printed = room.must(PRINT.replace(f" {ENTRY}", f" {entry}"), r"\{.*\}\n")
    if f"entry {entry} of thread " not in note or "'last': " not in printed:
        sys.exit(f"entry {entry}: {printed}{note}")
    drawn = room.run(PAGE_OF_RUN)
    with open(os.path.join(room.path, "run.html"), encoding="utf-8") as file:
        if drawn.returncode != 1 or drawn.stderr or f',"stuck":{entry}}}</script>' not in file.read():
            sys.exit(f"{PAGE_OF_RUN}: status {drawn.returncode}, and {drawn.stderr}")
    reply = possible_reply(note)
    words = f"{entry} {shlex.quote(reply)}" if reply else entry
    room.must(UNTIL.replace(f"{ENTRY} '[1, 2]'", words), r"(?s).* at  thread: call = reply -> .*")


def main():
    names = ["stamped", "stamped_explain", "stamped_picture", "observed_handles", "stamped_watch"]
    programs = dict(zip(names, sys.argv[1:]))
    tried = {*JAVA, *LIVE, FORGETS, HANDLES, PLANTED, PRINT, PAGE_OF_RUN, UNTIL}
    with open(PAGE, encoding="utf-8") as file:
        lines = lines_of(file.read())
    for line in [*sorted({*lines} - tried - BUILT), *sorted(tried - {*lines})]:
        sys.exit(f"{PAGE}: {line}\nis {'not tried' if line in lines else 'tried, and not on the page'}")
    with tempfile.TemporaryDirectory() as path:
        room = Room(path, programs)
        has_java = shutil.which("javac") is not None
        if has_java:
            try_java(room)
        room.must(HANDLES)
        room.must_be_right()
        room.must(f"{{ {PLANTED}; }} > run.json")
        room.must_be_right()
        try_stuck(room)
    print(f"{PAGE}: command lines that do what it says: {len(tried) - (0 if has_java else 5)}")


main()
