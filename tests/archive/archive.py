"""Compares the static library with the program `stamped`, and builds and runs the examples over it.

    archive.py ARCHIVE STAMPED

Run at the top of the repository, with libstamped_c.a and the program. `calls.c` calls the library's functions.

    sequences
             random calls from the opening on, in both layouts, with stamps that were issued, their
             neighbours and other numbers: the replies and the last word are those of `stamped replay`,
             and a call that waits is one that `stamped replay` says would wait
    numbers  random words of any version, and what is wrong with numbers, limits and codes, beside the
             plain functions below and the call table in python (bench/common/call_table.py)
    stamps   what numbers are as stamps, beside `stamped stamp`
    names    the constants of the header, of docs/C.md and of the Rust example, beside those that the
             contracts state (specs/Codes.antt)
"""
import json
import os
import random
import re
import shutil
import subprocess
import sys
import tempfile

sys.path.insert(0, "bench/common")
import call_table  # noqa: E402 (a file of bench/common)

SEQUENCES, LENGTH = 220, 500
WORDS, STAMPS, SEED = 20000, 60, 1
INCLUDE = "crates/stamped_c/include"
C_FLAGS = ["-O2", "-Wall", "-Wextra", "-pedantic", "-Werror", "-I", INCLUDE]

# The names of calls in JSON, in the order of their codes, from 1 on.
NAMES = ["try_write", "try_read", "write_lock", "read_lock", "optimistic", "validate", "unlock_write", "unlock_read",
         "unlock", "to_write", "to_read", "to_optimistic", "try_unlock_write", "try_unlock_read", "is_write_locked",
         "is_read_locked", "read_count"]
BARE = {name for name in NAMES if name.startswith("try_") or name.startswith("is_")} | {
    "write_lock", "read_lock", "optimistic", "read_count"}
WAIT = 16
# Names of the replies that are no stamp: of 0 and of 1.
ANSWERS = {"validate": ("no", "yes"), "try_unlock_write": ("no", "yes"), "try_unlock_read": ("no", "yes"),
           "is_write_locked": ("no", "yes"), "is_read_locked": ("no", "yes"), "unlock_write": ("mismatch", "done"),
           "unlock_read": ("mismatch", "done"), "unlock": ("mismatch", "done")}
KINDS = {16: "none", 17: "write", 18: "read", 19: "optimistic"}
# Numbers of no layout, the last ones those whose lowest bits name one.
NO_LAYOUTS = (0, 3, 4, 2**32 - 1, 257, 258, 65537, 65538, 2**31 + 1)
# What a version adds, the writer's unit, and the widest limits.
LAYOUTS = {1: (256, 128, 127, 2**55 - 2), 2: (131072, 65536, 65535, 2**46 - 2)}


class Library:
    """The functions of the archive, called by lines."""

    def __init__(self, program):
        self.process = subprocess.Popen([program], stdin=subprocess.PIPE, stdout=subprocess.PIPE, text=True, bufsize=1)

    def say(self, *words):
        self.process.stdin.write(" ".join(map(str, words)) + "\n")
        self.process.stdin.flush()
        return self.process.stdout.readline().split()

    def ask(self, *numbers):
        return [int(number) for number in self.say(*numbers)]


def fail(text):
    sys.exit(f"archive.py: {text}")


def same(what, ours, wanted):
    if ours != wanted:
        fail(f"{what}: {ours}, and not {wanted}")


def reply_of(name, reply):
    """A reply as `stamped replay` writes it."""
    if name in ANSWERS:
        return ANSWERS[name][reply]
    return {"count": reply} if name == "read_count" else reply


def drawn_stamp(layout, issued, word):
    """A stamp that was issued, or the word, or one near it; or any number."""
    version, writer, _, _ = LAYOUTS[layout]
    base = random.choice([*issued[-4:], random.choice(issued), word])
    by = random.choice([0, 0, 0, 0, 1, -1, writer, -writer, version, -version])
    number = random.getrandbits(random.choice([9, 18, 64])) if random.random() < 0.05 else base + by
    return number % 2**64


def sequence(library, layout, limits):
    """The calls that were made, their replies, the last word, and the calls made before each one that waits."""
    (word,) = library.ask("o", layout)
    calls, replies, issued, waits = [], [], [word], []
    for _ in range(LENGTH):
        name = random.choice(NAMES)
        stamp = drawn_stamp(layout, issued, word)
        new, reply = library.ask("d", layout, *limits, word, NAMES.index(name) + 1, stamp)
        call = [name] if name in BARE else [name, stamp]
        if new == WAIT:
            same(f"{call} on {word}", reply, 0)
            waits.append((len(calls), call))
            continue
        if new < LAYOUTS[layout][0]:
            fail(f"{call} on {word} of layout {layout}: error {new}")
        calls.append(call)
        replies.append(reply_of(name, reply))
        if replies[-1] == reply:
            issued.append(reply)
        word = new
    return calls, replies, word, waits


def replayed(stamped, layout, limits, calls):
    text = json.dumps({"calls": calls, "layout": layout, "readers": limits[0], "versions": limits[1]})
    return subprocess.run([stamped, "replay"], input=text, capture_output=True, text=True, check=False)


def compare_sequence(library, stamped, layout, limits):
    calls, replies, word, waits = sequence(library, layout, limits)
    run = replayed(stamped, layout, limits, calls)
    if run.returncode:
        fail(f"stamped refuses the calls of a sequence under {limits}: {run.stderr}")
    told = json.loads(run.stdout)
    for call, ours, wanted in zip(calls, replies, told["replies"], strict=True):
        same(f"{call} in a sequence of layout {layout} under {limits}", ours, wanted)
    same(f"the last word of a sequence of layout {layout}", word, told["word"])
    for before, call in waits[:1]:
        run = replayed(stamped, layout, limits, [*calls[:before], call])
        if run.returncode != 1 or f"call {before}" not in run.stderr:
            fail(f"{call} doesn't wait in stamped: {run.stdout}{run.stderr}")
    return len(calls), len(waits)


def compare_sequences(library, stamped):
    made = waited = 0
    for number in range(SEQUENCES):
        layout = 1 + number % 2
        most, versions = LAYOUTS[layout][2:]
        limits = random.choice([(most, versions), (1, versions), (3, 20), (most, 0), (2, random.randrange(1, 100))])
        calls, waits = compare_sequence(library, stamped, layout, limits)
        made, waited = made + calls, waited + waits
    print(f"sequences: {made} replies as those of stamped replay, {waited} calls that wait")
    if made < 100000:
        fail("too few calls were made")


def error_of(layout, readers, versions, word=None):
    """The error of limits, and of a word under them."""
    if layout not in LAYOUTS:
        return 1
    version, writer, most_readers, most_versions = LAYOUTS[layout]
    if not 1 <= readers <= most_readers or versions > most_versions:
        return 2
    if word is None:
        return 0
    count, holders = divmod(word, version)
    if count == 0 or holders > writer or word + writer >= 2**63:
        return 3
    if holders == writer:
        return 4 if count > versions else 0
    return 4 if holders > readers or count - 1 > versions else 0


def decision_of(layout, readers, versions, word, code, stamp):
    """What the library is to answer, by the call table in python."""
    error = error_of(layout, readers, versions, word)
    if error or not 1 <= code <= len(NAMES):
        return [error or 5, 0]
    call_table.VERSION, call_table.WRITER = LAYOUTS[layout][:2]
    decided = call_table.TABLE[NAMES[code - 1]]((readers, versions), word, stamp)
    if decided is None:
        return [WAIT, 0]
    new, reply = decided
    names = ANSWERS.get(NAMES[code - 1], ())
    number = reply["count"] if isinstance(reply, dict) else names.index(reply) if names else reply
    return [word if new is None else new, number]


def edges(layout):
    """Limits and words at the edges of a layout, and beyond them."""
    version, writer, readers, versions = LAYOUTS.get(layout, LAYOUTS[1])
    limits = [(most, count) for most in (0, 1, 2, readers - 1, readers, readers + 1, 2**32 - 1)
              for count in (0, 1, 2, versions - 1, versions, versions + 1, 2**64 - 1)]
    words = [0, 1, 2, 3, 4, 5, 16, writer, version - 1, 2**63 - 1, 2**63, 2**64 - 1, 2**63 - writer, 2**63 - writer - 1]
    words += [version * count + holders for count in (1, 2, 3, versions, versions + 1)
              for holders in (0, 1, 2, 3, writer - 1, writer, writer + 1, version - 1)]
    return limits, words


def compare_edges(library):
    compared = 0
    for layout in (1, 2, *NO_LAYOUTS):
        same(f"opening of layout {layout}", library.ask("o", layout), [LAYOUTS.get(layout, (0,))[0]])
        limits, words = edges(layout)
        for given in limits:
            same(f"limits {layout} {given}", library.ask("l", layout, *given), [error_of(layout, *given)])
            for word in words:
                case = (layout, *given, word)
                same(f"word {case}", library.ask("w", *case), [error_of(*case)])
                code = random.choice([0, 18, 19, 2**32 - 1, 257, 65537, *range(1, 18)])
                case += (code, word)
                same(f"decision {case}", library.ask("d", *case), decision_of(*case))
                compared += 3
    print(f"edges: {compared} words, decisions and limits as expected")


def compare_words(library):
    """Random words of any version, each with every call."""
    found = set()
    for _ in range(WORDS // len(NAMES) + 1):
        layout = random.choice([1, 2])
        version, writer, readers, versions = LAYOUTS[layout]
        limits = random.choice([(readers, versions), (random.randint(1, readers), random.randint(0, versions))])
        count = min(random.getrandbits(random.randint(1, 55)), random.choice([limits[1], versions]))
        holders = random.choice([0, 1, writer, random.randint(0, limits[0])])
        word = version * (count + (holders != writer)) + holders
        for code in range(1, len(NAMES) + 1):
            stamp = drawn_stamp(layout, [version * (count + 1), word], word)
            case = (layout, *limits, word, code, stamp)
            made = library.ask("d", *case)
            same(f"decision {case}", made, decision_of(*case))
            found.add((code, WAIT if made[0] == WAIT else made[0] != word))
    print(f"words: {len(NAMES) * (WORDS // len(NAMES) + 1)} decisions as the call table's, {len(found)} kinds")


def drawn_number():
    return drawn_stamp(random.choice([1, 2]), [random.getrandbits(random.randint(1, 63))], random.getrandbits(18))


def compare_stamps(library, stamped):
    edge = [0, 1, 2**63 - 1, 2**63, 2**64 - 1]
    for version, writer, _, versions in LAYOUTS.values():
        edge += [version * count + by for count in (0, 1, 2, versions, versions + 1)
                 for by in (0, 1, writer - 1, writer, writer + 1, version - 1)]
    numbers = [(layout, number) for layout in (1, 2) for number in edge + [drawn_number() for _ in range(STAMPS)]]
    for layout, number in numbers:
        ours = library.ask("k", layout, number)
        run = subprocess.run([stamped, "stamp", "--layout", str(layout), str(number)], capture_output=True, text=True,
                             check=True)
        told = run.stdout.split()
        wanted = [told[0], *map(int, told[1:]), 0, 0][:3]
        same(f"stamp {number} of layout {layout}", [KINDS.get(ours[0]), *ours[1:]], wanted)
    for layout in NO_LAYOUTS:
        same(f"a stamp of layout {layout}", library.ask("k", layout, 256), [1, 0, 0])
    print(f"stamps: {len(numbers)} kinds as those of stamped stamp")


def in_c(name):
    """A variant's name as C spells it."""
    return re.sub(r"(?<!^)(?=[A-Z])", "_", name).upper()


def stated():
    """The constants that the contracts state, by their names in C."""
    text = text_of("crates/stamped_c/specs/Codes.antt")
    found = {in_c(name): int(code) for code, name in re.findall(r"n == (\d+) then Some \(?(\w+)", text)}
    del found["ONE"], found["TWO"]
    found |= {in_c(name): int(code) for name, code in re.findall(r"^error_code (\w+) = (\d+)$", text, re.M)}
    found |= {in_c(name): int(code) for name, code in re.findall(r"^reply_number (\w+) = (\d+)$", text, re.M)}
    kinds = re.findall(r"^kind_in_c \(Ok \(?kind\.(\w+)[^=]*= record \{ kind = (\d+)", text, re.M)
    found |= {"NEITHER" if name == "Neither" else f"{in_c(name)}_STAMP": int(code) for name, code in kinds}
    found["WAIT"] = int(re.search(r"^made_in_c word Wait = unreplied_in_c (\d+)$", text, re.M)[1])
    found |= {"OK": 0, "LEAST_WORD": 256}
    for layout, (_, _, readers, versions) in LAYOUTS.items():
        found |= {f"READERS_{layout}": readers, f"VERSIONS_{layout}": versions}
    return found


def text_of(path):
    with open(path, encoding="utf-8") as file:
        return file.read()


def compare_names(library):
    wanted = stated()
    ours = dict(word.removeprefix("STAMPED_").split("=") for word in library.say("c"))
    same("the header's constants", {name: int(value) for name, value in ours.items()}, wanted)
    page = text_of("docs/C.md")
    for path, text in (("stamped.h", text_of(f"{INCLUDE}/stamped.h")), ("docs/C.md", page)):
        unknown = set(re.findall(r"\bSTAMPED_(\w+)", text)) - set(wanted) - {"H"}
        if unknown:
            fail(f"{path} names constants that the header hasn't: {sorted(unknown)}")
    told = re.findall(r"(\d+) `STAMPED_(\w+)`", page)
    for value, name in told:
        same(f"docs/C.md, {name}", int(value), wanted[name])
    rust = re.findall(r"pub const (\w+): u\d+ = (\d+);", text_of("examples/rust/count.rs"))
    for name, value in rust:
        same(f"examples/rust, {name}", int(value), wanted[name])
    print(f"names: {len(wanted)} of the header, {len(told)} of docs/C.md and {len(rust)} of examples/rust as stated")


def build_and_run(name, command):
    done = subprocess.run(command, capture_output=True, text=True, check=False)
    if done.returncode:
        fail(f"{name} doesn't compile:\n{done.stdout}{done.stderr}")
    run = subprocess.run([command[command.index("-o") + 1]], capture_output=True, text=True, timeout=3600, check=False)
    same(f"{name}: status and output", (run.returncode, run.stdout), (0, "40000\n"))
    print(f"{name}: built without a warning, and prints 40000")


def try_header(archive, room):
    """A program over the header and the archive, as C11 and as C++17."""
    for compiler, standard, suffix in (("cc", "c11", "c"), ("c++", "c++17", "cpp")):
        if not shutil.which(compiler):
            print(f"header: no {compiler}, so {standard} is left out")
            continue
        path = os.path.join(room, f"header.{suffix}")
        with open(path, "w", encoding="utf-8") as file:
            file.write('#include "stamped.h"\nint main(void) { return stamped_opening(1) != 256; }\n')
        subprocess.run([compiler, f"-std={standard}", *C_FLAGS, "-o", path + ".out", path, archive], check=True)
        subprocess.run([path + ".out"], check=True)
        print(f"header: {standard} without a warning")


def try_shared(archive, room):
    """The archive as a shared library."""
    subprocess.run(["cc", "-shared", "-Wl,--whole-archive", archive, "-Wl,--no-whole-archive", "-o",
                    os.path.join(room, "libshared.so")], check=True)
    print("archive: links into a shared library")


def try_examples(archive, room):
    count = os.path.join(room, "count")
    build_and_run("examples/c", ["cc", "-std=c11", "-pthread", *C_FLAGS, "-o", count, "examples/c/count.c", archive])
    if not shutil.which("rustc"):
        print("examples/rust: no rustc, so it is left out")
        return
    shutil.copy(archive, os.path.join(room, "libstamped_c.a"))
    build_and_run("examples/rust", ["rustc", "--edition", "2024", "-O", "-D", "warnings", "-L", f"native={room}",
                                    "-l", "static=stamped_c", "-o", count + "_rs", "examples/rust/count.rs"])


def try_page():
    """The lock on docs/C.md stands in examples/c."""
    with open("docs/C.md", encoding="utf-8") as page, open("examples/c/lock.h", encoding="utf-8") as source:
        quoted = page.read().split("```c\n")[1].split("```")[0]
        if quoted not in source.read():
            fail("the lock on docs/C.md isn't that of examples/c/lock.h")
    print("docs/C.md: quotes examples/c/lock.h")


def main():
    archive, stamped = (os.path.abspath(path) for path in sys.argv[1:])
    random.seed(SEED)
    with tempfile.TemporaryDirectory() as room:
        calls = os.path.join(room, "calls")
        subprocess.run(["cc", "-std=c11", *C_FLAGS, "-o", calls, "tests/archive/calls.c", archive], check=True)
        library = Library(calls)
        compare_edges(library)
        compare_words(library)
        compare_stamps(library, stamped)
        compare_names(library)
        compare_sequences(library, stamped)
        try_page()
        try_header(archive, room)
        try_shared(archive, room)
        try_examples(archive, room)


main()
