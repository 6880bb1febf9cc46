"""Texts that the program `stamped` is given, and the line that it prints of each.

    stamped.py STAMPED

A table has the orders' words, the text on standard input and the line. A line that begins with `stamped:` comes
on standard error, and then nothing on standard output; of the others one that begins with `bad ` is no success.
Then the ends are tried: a standard input that isn't to be read, one that is too long or doesn't end, and a standard
error that takes nothing."""
import json
import os
import subprocess
import sys

from histories import HISTORIES, MIGRATED, each_cut
from replays import REPLAYS
from runs import RUNS, each_call
from stamps import STAMPS, UNREAD, WORDS

MOST_BYTES = 16_777_216
TOO_LONG = "stamped: input over 16777216 bytes"
EMPTY = b'{"entries":[],"format":1,"readers":127,"versions":1000,"width":0}'
# A script, what it is run to, that with its report and in layout 2, and a history that is bad.
SCRIPT = '{"readers":1,"steps":[0,0],"threads":[[["try_read"]]],"versions":1,"width":0}'
FOUND = ('{"entries":[{"call":["try_read"],"first":0,"last":1,"point":1,"reply":257,"thread":0}],'
         '"format":1,"readers":1,"versions":1,"width":0}')
REPORTED = FOUND.replace('"versions"', '"report":[[2,0]],"versions"')
WIDE = FOUND.replace("257", "131073").replace('"format":1', '"format":2,"layout":2')
WRONG = FOUND.replace("257", "258")
EACH_ORDER_IS_ANSWERED = [
    ("replay", '{"calls":[["try_read"]],"readers":1,"versions":1}', '{"replies":[257],"word":257}'),
    ("run", SCRIPT, FOUND), ("run --report", SCRIPT, REPORTED), ("check", FOUND, "ok 1"),
    ("check", WRONG, "bad 0 reply"), ("migrate", FOUND, WIDE), ("stamp 384", "", "write 1"),
    ("stamp --layout 2 384", "", "none"), ("check", SCRIPT, "stamped: not a history: top"),
]
# What is told on standard error alone, and with which status.
UNTOLD = [([], b"", 2), (["check", "check"], b"", 2), (["check"], b"[", 1), (["replay"], b"", 1)]


def line_of(program, words, text, **source):
    """The one line that is printed, without its end. The text is the input, or another source is in its place."""
    given = text if isinstance(text, bytes) else text.encode()
    run = subprocess.run([program, *words], **(source or {"input": given}), capture_output=True, timeout=3600)
    out, told = run.stdout.decode(), run.stderr.decode()
    line = told or out
    is_refused = line.startswith("stamped: ")
    wanted_status = 2 if line == "stamped: bad command line\n" else int(is_refused or line.startswith("bad "))
    if (told == "") == is_refused or (is_refused and out) or run.returncode != wanted_status:
        sys.exit(f"{words} {given[:200]}\nstatus {run.returncode}, output {out[:200]!r}, error {told[:200]!r}")
    if line.count("\n") != 1 or not line.endswith("\n"):
        sys.exit(f"{words} {given[:200]}: not one line: {line[:200]!r}")
    return line[:-1]


def expect(program, words, text, wanted, **source):
    line = line_of(program, words, text, **source)
    if line != wanted:
        sys.exit(f"{words} {text[:300]}\nprints {line[:300]}\nand not {wanted[:300]}")


def try_tables(program):
    tables = {"orders": EACH_ORDER_IS_ANSWERED, "replays": REPLAYS, "runs": RUNS, "histories": HISTORIES,
              "stamps": STAMPS, "command lines": WORDS}
    for name, table in tables.items():
        for words, text, wanted in table:
            expect(program, words.split(" ") if isinstance(words, str) else words, text, wanted)
        print(f"{name}: {len(table)} as they are to be")


def try_runs(program):
    """What a run prints is judged to be right, and each call of a script is written as it was read."""
    judged = 0
    for words, text, wanted in RUNS:
        if wanted.startswith("{"):
            expect(program, ["check"], wanted, f"ok {len(json.loads(wanted)['entries'])}")
            judged += 1
    for call, text, written in each_call():
        entries = json.loads(line_of(program, ["run"], text))["entries"]
        if [entry["call"] for entry in entries] != [written]:
            sys.exit(f"{call} is written as {entries}")
    print(f"runs: {judged} histories judged to be right, and {len(each_call())} calls written")


def try_migrations(program):
    """A history and what it is migrated to have one verdict."""
    for history, migrated, verdict in MIGRATED:
        expect(program, ["migrate"], history, migrated)
        expect(program, ["check"], history, verdict)
        expect(program, ["check"], migrated, verdict)
    for cut in each_cut():
        expect(program, ["check"], cut, "stamped: not json")
    print(f"histories: {len(MIGRATED)} migrated, and {len(each_cut())} that are cut off")


def try_unread(program):
    """Where nothing is to be read, the line comes though standard input doesn't end, and what waits there is left."""
    for words, wanted in UNREAD:
        reader, writer = os.pipe()
        os.write(writer, EMPTY)
        expect(program, words, "", wanted, stdin=reader)
        os.set_blocking(reader, False)
        left = os.read(reader, len(EMPTY) + 1)
        if left != EMPTY:
            sys.exit(f"{words}: of the input {left} is left, and not {EMPTY}")
        os.close(reader)
        os.close(writer)
    print(f"inputs that aren't to be read: {len(UNREAD)} are left as they were")


def try_long(program):
    """An input of the most bytes is answered; a longer one is refused, also where it doesn't end."""
    most = EMPTY.ljust(MOST_BYTES)
    expect(program, ["check"], most, "ok 0")
    commands = [["replay"], ["run"], ["run", "--report"], ["check"], ["migrate"]]
    for words in commands:
        expect(program, words, most + b" ", TOO_LONG)
    with open("/dev/zero", "rb") as zeros:
        expect(program, ["check"], "", TOO_LONG, stdin=zeros)
    print(f"long inputs: {len(commands) + 2} as they are to be")


def try_untold(program):
    """Where nothing can be written to standard error, the status is as ever, and nothing comes on standard output."""
    for words, text, status in UNTOLD:
        for end in ["2>/dev/full", "2>&-"]:
            run = subprocess.run(["bash", "-c", f'exec "$@" {end}', "-", program, *words], input=text,
                                 stdout=subprocess.PIPE, timeout=3600)
            if (run.returncode, run.stdout) != (status, b""):
                sys.exit(f"{words} {end}: status {run.returncode}, output {run.stdout[:200]!r}")
    print(f"lines that can't be written: {2 * len(UNTOLD)} end with their status")


def main():
    program = sys.argv[1]
    try_tables(program)
    try_runs(program)
    try_migrations(program)
    try_unread(program)
    try_long(program)
    try_untold(program)


main()
