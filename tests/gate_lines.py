"""Prints the lines of `rt ci` as they come, each with the minutes so far, and keeps what the later stages use.

    rt ci 2>&1 | gate_lines.py FOLDER PROGRAM..

Run at the top of the repository. Once a crate is proved, its library is in FOLDER/libraries, and its name is written to
the pipe FOLDER/proved; once each PROGRAM is proved, and so linked, a line to the pipe FOLDER/built. What an earlier run
proved is there at once.

A library is taken when its crate is proved, and not at the end: `rt ci` moves what stood in crates/*/out aside when it
begins, and gives that back over its own when it ends, also what other commands had built there of other texts.

A crate fails if its check counts other functions that may wait than crates.txt says, which `rt ci` doesn't compare.

The last two lines of a gate that passes speak of the gate alone, so they are kept from the page: how many things passed
and failed goes to the file FOLDER/gate. After a minute without a line, one says how far it is."""
import os
import re
import select
import shutil
import sys
import time

QUIET = 60


def link_or_copy(one, other):
    """A second name for a file, or a copy on another disk. `rt` removes the files of a library before it makes them anew."""
    try:
        os.link(one, other)
    except OSError:
        shutil.copyfile(one, other)


def take_library(name, folder):
    """Takes the library that the gate built of this crate. Where it is gone already, the gate has ended: then no other
    crate was still to be proved over it."""
    if os.path.isdir(f"crates/{name}/out/rlib/{name}.rlib"):
        try:
            shutil.copytree(f"crates/{name}/out/rlib", f"{folder}/{name}", copy_function=link_or_copy)
        except (OSError, shutil.Error):
            shutil.rmtree(f"{folder}/{name}", ignore_errors=True)


def say_to(pipe, what):
    with open(pipe, "w") as file:
        file.write(f"{what}\n")


def number_in(pattern, line):
    found = re.search(pattern, line)
    return int(found[1]) if found else 0


class Gate:
    """How far it is: the crates that are proved, and what is still to be built."""

    def __init__(self, folder, programs):
        with open("crates.txt") as file:
            lines = [line for line in file if re.match(r"\w", line)]
        self.names = [line.split()[0].rstrip(":") for line in lines]
        self.may_wait = {name: number_in(r"\bmay_wait=(\d+)", line) for name, line in zip(self.names, lines)}
        self.folder, self.programs, self.at, self.miscounted = folder, {*programs}, None, 0
        self.proved, self.start = set(), time.monotonic()

    def tell(self, text):
        minutes, seconds = divmod(int(time.monotonic() - self.start), 60)
        print(f"{minutes:3}:{seconds:02}  {text}", flush=True)

    def take(self, line):
        last = re.fullmatch(r"(\d+) passed, (\d+) failed", line)
        if last:
            with open(f"{self.folder}/gate", "w") as file:
                file.write(f"{last[1]} {int(last[2]) + self.miscounted}\n")
            return
        if line.startswith("rt: ok; "):
            return
        self.tell(line)
        self.count(line)
        proved = re.fullmatch(r"rt: (\w+) (?:proved|is kept: .*)", line)
        if proved and proved[1] not in self.proved:
            self.proved.add(proved[1])
            self.hand_on(proved[1])

    def count(self, line):
        """Compares what the last line of a crate's check counts; its tests may wait as they like."""
        begun = re.fullmatch(r"== (\w+)(: its tests)?", line)
        if begun:
            self.at = None if begun[2] else begun[1]
        counted = number_in(r" may-wait=(\d+)", line)
        if line.startswith("logic=proved") and self.at and counted != self.may_wait.get(self.at):
            self.tell(f"FAILED: crates.txt has may_wait={self.may_wait.get(self.at)} of {self.at}, and its check counts {counted}")
            self.miscounted += 1

    def hand_on(self, name):
        """Takes the library of this crate, which is proved, and says what is there since."""
        take_library(name, f"{self.folder}/libraries")
        say_to(f"{self.folder}/proved", name)
        if self.programs <= self.proved and name in self.programs:
            say_to(f"{self.folder}/built", "there")

    def wait(self):
        self.tell(f"at work: {len(self.proved)} of {len(self.names)} crates proved")


def main():
    gate, rest = Gate(sys.argv[1], sys.argv[2:]), b""
    while True:
        if not select.select([sys.stdin], [], [], QUIET)[0]:
            gate.wait()
            continue
        read = os.read(sys.stdin.fileno(), 65536)
        *lines, rest = (rest + read).split(b"\n")
        for line in lines:
            gate.take(line.decode(errors="replace"))
        if not read:
            break


try:
    main()
except KeyboardInterrupt:
    sys.exit(130)
