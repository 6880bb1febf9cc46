"""Tries the gate and the wrong bodies on three small crates, over what other commands left in their folders `out`.

    small_workspace.py

A command has built the lowest library, and the middle one of another text than it has now, and a gate was killed at its
work. After that the gate must pass, and each wrong body be refused, for what the crates say now: so an edit that changes
no meaning isn't. At last, what counts for no wrong body: edits that show nothing of a contract, or change one, or can't
be tried, beside which others are; no edits at all; libraries that don't belong together, or are older than their text;
and a crate of which a gate counts other functions that may wait than crates.txt says."""
import os
import shutil
import signal
import subprocess
import sys
import tempfile
import time

TESTS = os.path.dirname(os.path.dirname(os.path.abspath(__file__)))

CRATES = "lowest:\nmiddle: lowest\nhighest: lowest middle\n"
LOWEST = """//! Numbers that are doubled, and numbers of types.
#![tactic(auto)]

ghost use Rattle.std.specs.Prelude.{◌≡◌, ◌+◌};

/// A type with a number.
pub trait Numbered {
    ghost use Rattle.std.specs.Prelude.{◌≡◌, ℕ};

    // The number of the type.
    ghost number: { Self → ℕ };

    /// The number of the type.
    fn number(&self) -> u64
        ensures { result ≡ number self.now };
}

/// A type with the number 6.
pub struct Six;

impl Numbered for Six {
    ghost number = { λ _. 6 };

    fn number(&self) -> u64 {
        6
    }
}

/// A type with the number 7.
pub struct Seven;

impl Numbered for Seven {
    ghost number = { λ _. 7 };

    fn number(&self) -> u64 {
        7
    }
}

/// Twice the number.
pub fn doubled(number: u32) -> u64
    ensures { result ≡ number + number }
{
    let wide = number as u64;
    wide + wide
}
"""
# A proof by hand, which other bodies of the same meaning don't fit.
DOUBLED = """use Rattle.std.specs.Prelude.{refl}
use Rattle.lowest.proofs.doubled.Goals as goal

pub returns : goal.returns
returns c = refl
"""
MIDDLE = """//! Numbers that are doubled, and one more.
#![tactic(auto)]

ghost use Rattle.std.specs.Prelude.{◌≡◌, ◌+◌};

use lowest::doubled;

/// The number that follows twice the number.
pub fn next_of_doubled(number: u32) -> u64
    ensures { result ≡ number + number + 1 }
{
    doubled(number) + 1
}
"""
HIGHEST = """//! Numbers of both sorts.
#![tactic(auto)]

ghost use Rattle.std.specs.Prelude.{◌≡◌, ◌+◌, true, false};

use lowest::doubled;
use middle::next_of_doubled;

/// The number of a sort.
pub fn number_of(is_next: bool, number: u32) -> u64
    ensures number { is_next ≡ false → result ≡ number + number }
    ensures next { is_next ≡ true → result ≡ number + number + 1 }
{
    if is_next {
        next_of_doubled(number)
    } else {
        doubled(number)
    }
}
"""
# What the middle one was before: its contract said less.
OLDER_MIDDLE = MIDDLE.replace("ensures { result ≡ number + number + 1 }", "ensures { result ≡ number + number }").replace(
    "doubled(number) + 1", "doubled(number)")
# So that no earlier run has kept a proof of it.
LOWEST = LOWEST.replace("doubled.", f"doubled, for the trial {time.time_ns()}.", 1)
SOURCES = {"lowest": LOWEST, "middle": MIDDLE, "highest": HIGHEST}


def edit(old, new, *lines, file="src/lib.rt"):
    """The text of an edit of this file, with these lines of its own at the end."""
    return "\n".join([f"file: {file}", f"old: {old}", f"new: {new}", *lines, ""])


EDITS = {
    "lowest/a_number_is_not_doubled": edit("wide + wide", "wide + 0", "twin: wide + wide"),
    "middle/the_next_is_left_out": edit("doubled(number) + 1", "doubled(number)"),
    "highest/the_next_is_not_asked_for": edit("next_of_doubled(number)", "doubled(number)"),
}
# One that changes no meaning.
SAME = {"highest/nothing_is_changed": edit("        doubled(number)", "        let twice = doubled(number); twice")}
# What is no wrong body of the lowest crate, with what is said of it, and one beside those.
NONE = {
    "a_sum_that_may_not_fit": (edit("wide + wide", "((number + number) as u64)"), "SHOWS NOTHING"),
    "what_is_reached": (edit("wide + wide", "if number == 7 { unreachable!() } else { wide + wide }"), "SHOWS NOTHING"),
    "the_right_body_in_another_form": (edit("wide + wide", "wide * 2 + 0", "twin: wide * 2"), "SHOWS NOTHING: its twin"),
    "a_twin_of_another_meaning": (edit("wide + wide", "wide + 1", "twin: wide + 2"), "SHOWS NOTHING: its twin"),
    "the_contract_is_another": (edit("result ≡ number + number", "result ≡ number"), "FAILED: it changes what"),
    "the_contract_is_another_by": (edit("result ≡ number + number", "result ≡ number", "by: doubled"), "FAILED: it changes what"),
    "a_definition_is_another": (edit("ghost number = { λ _. 7 };", "ghost number = { λ _. 8 };"), "FAILED: it changes what"),
    "a_proof_is_spoilt": (edit("= refl", "= c", "by: doubled", file="proofs/doubled/Answers.antt"), "FAILED: it changes what"),
    "a_type_is_another": (edit("pub struct Seven;", "pub struct Seven { more: u64 }", "by: doubled"), "FAILED: it changes neither"),
    "no_such_text": (edit("wide - wide", "wide"), "FAILED: its text stands in src/lib.rt 0 times"),
    "a_name_is_missing": (edit("wide + wide", "wide + missing"), "FAILED: it doesn't compile"),
    "the_number_of_a_type_is_another": (edit("        7", "        8"), "refused"),
}


def fail(text):
    sys.exit(f"small_workspace.py: {text}")


def write(path, text):
    os.makedirs(os.path.dirname(path), exist_ok=True)
    with open(path, "w", encoding="utf-8") as file:
        file.write(text)


def write_edits(top, edits):
    shutil.rmtree(f"{top}/tests/edits", ignore_errors=True)
    os.makedirs(f"{top}/tests/edits")
    for script in ("refused.py", "edits.py"):
        shutil.copy(f"{TESTS}/edits/{script}", f"{top}/tests/edits")
    for name, text in edits.items():
        write(f"{top}/tests/edits/{name}.edit", text)


def make_workspace(top):
    subprocess.run(["git", "init", "-q", top], check=True)
    write(f"{top}/crates.txt", CRATES)
    for crate, text in SOURCES.items():
        write(f"{top}/crates/{crate}/src/lib.rt", text)
    write(f"{top}/crates/lowest/proofs/doubled/Answers.antt", DOUBLED)
    write_edits(top, EDITS)


def build(top, crate):
    """Builds a library, as a command of the user does."""
    built = subprocess.run(["rt", "lib"], cwd=f"{top}/crates/{crate}", capture_output=True, text=True)
    if built.returncode != 0:
        fail(f"rt lib of {crate}: {built.stdout}{built.stderr}")


def kill_a_gate(top):
    """Begins a gate, and kills it, with all that it started, once it has proved a crate."""
    gate = subprocess.Popen(["rt", "ci"], cwd=top, stdout=subprocess.PIPE, stderr=subprocess.STDOUT, text=True,
                            start_new_session=True)
    for line in gate.stdout:
        if line.startswith("rt: lowest "):
            break
    os.killpg(gate.pid, signal.SIGKILL)
    gate.communicate()


def gate(top, folder):
    """Runs the gate, and gives what passed and failed."""
    os.makedirs(folder)
    os.mkfifo(f"{folder}/proved")
    # it is held open, so that nobody waits for a reader
    held = os.open(f"{folder}/proved", os.O_RDWR)
    ran = subprocess.run(["bash", "-c", f"rt ci 2>&1 | python3 -B {TESTS}/gate_lines.py {folder}"], cwd=top,
                         capture_output=True, text=True)
    os.close(held)
    if not os.path.exists(f"{folder}/gate"):
        fail(f"the gate has no end: {ran.stdout}{ran.stderr}")
    with open(f"{folder}/gate") as file:
        return file.read().split(), ran.stdout


def refused(top, folder, *words):
    """Tries the wrong bodies over these libraries, or those that commands built: how many were refused and how many
    failed, and what was told."""
    words = ["python3", "-B", "tests/edits/refused.py", "--proved", "--count", f"{folder}/edits", *words]
    ran = subprocess.run(words, cwd=top, capture_output=True, text=True)
    with open(f"{folder}/edits") as file:
        count = tuple(map(int, file.read().split()))
    if (ran.returncode == 0) != (count[1] == 0):
        fail(f"status {ran.returncode} of {count}: {ran.stdout}{ran.stderr}")
    return count, ran.stdout + ran.stderr


def try_edits(what, top, folder, edits, wanted, is_by_hand=False):
    """Tries these edits, of which so many are to be refused and to fail, and gives what was told."""
    write_edits(top, edits)
    count, told = refused(top, folder, *([] if is_by_hand else ["--libraries", f"{folder}/libraries"]))
    if count != wanted:
        fail(f"{what}: {count}, and not {wanted}:\n{told}")
    print(f"{what}: {count[0]} refused, {count[1]} failed", flush=True)
    return told


def pass_gate(top, folder):
    (_, failed), told = gate(top, folder)
    if failed != "0":
        fail(f"the gate failed:\n{told}")


def try_none(top, folder):
    """Tries what is no wrong body, and one beside: each is told by its name, and for what it is."""
    edits = {f"lowest/{name}": text for name, (text, _) in NONE.items()}
    told = try_edits("what is no wrong body, and one beside", top, folder, edits, (1, len(NONE) - 1))
    for name, (_, what) in NONE.items():
        if f"\nlowest/{name}.edit: {what}" not in told:
            fail(f"of {name} isn't told {what}:\n{told}")


def try_libraries(top, folder):
    """Tries edits over libraries that don't belong together, and over one that is older than its text."""
    shutil.rmtree(f"{folder}/libraries/lowest")
    shutil.copytree(f"{top}/crates/lowest/out/rlib", f"{folder}/libraries/lowest")
    told = try_edits("libraries that don't belong together", top, folder, EDITS, (0, 1))
    if "can't be used" not in told:
        fail(f"it isn't told that the libraries can't be used:\n{told}")
    # The clock of a machine may be set back while this runs, so it doesn't tell which file is the later one.
    built = os.path.getmtime(f"{top}/crates/lowest/out/rlib/stamp")
    for text, second in (("proofs/doubled/Answers.antt", built - 1), ("src/lib.rt", built + 1)):
        os.utime(f"{top}/crates/lowest/{text}", (second, second))
    told = try_edits("a library that is older than its text", top, folder, EDITS, (0, 1), is_by_hand=True)
    if "lowest is older than crates/lowest/src/lib.rt" not in told:
        fail(f"it isn't told that a library is old:\n{told}")


def try_count(folder):
    """Has a gate of one crate that passes count two functions that may wait, where crates.txt says 1."""
    os.makedirs(f"{folder}/counted")
    write(f"{folder}/crates.txt", "lowest may_wait=1:\n")
    lines = "== lowest\nlogic=proved functions=3 may-wait=2 sum=1\n1 passed, 0 failed\n"
    words = ["python3", "-B", f"{TESTS}/gate_lines.py", f"{folder}/counted"]
    told = subprocess.run(words, cwd=folder, input=lines, capture_output=True, text=True).stdout
    with open(f"{folder}/counted/gate") as file:
        if file.read() != "1 1\n" or "FAILED: crates.txt has may_wait=1 of lowest, and its check counts 2" not in told:
            fail(f"another count of functions that may wait passes:\n{told}")
    print("another count of functions that may wait: 1 failed", flush=True)


def main():
    with tempfile.TemporaryDirectory() as room:
        top, folder = f"{room}/workspace", f"{room}/folder"
        make_workspace(top)
        write(f"{top}/crates/middle/src/lib.rt", OLDER_MIDDLE)
        build(top, "middle")
        write(f"{top}/crates/middle/src/lib.rt", MIDDLE)
        kill_a_gate(top)
        pass_gate(top, folder)
        told = try_edits("after a text was changed and a gate killed", top, folder, {**EDITS, **SAME}, (len(EDITS), 1))
        if "nothing_is_changed.edit: NOT REFUSED" not in told:
            fail(f"an edit that changes no meaning is refused:\n{told}")
        try_none(top, folder)
        try_edits("no edits", top, folder, {}, (0, 1))
        try_libraries(top, folder)
        try_count(folder)


main()
