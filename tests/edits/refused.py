"""Tries wrong bodies, many over one load of the libraries: the prover must refuse each, and prove its twin.

    refused.py [--libraries FOLDER] [--proved | --gate PIPE] [--count FILE] [--all]
        [CRATE | CRATE/NAME.edit | CRATE/more/NAME.edit ..]

Without --all, or an edit's own name, those of the folders `more` are left out: `./test` tries one for each public
function that a wrong body can be made of, but for most of those that only hand a call on, those of the faults that a
lock, a judge or a picture must not have, and those that a page names; the others take as long again.

The head of edits.py says what an edit is. A function is proved from the contracts of those that it calls, so edits of
several functions are tried in one copy of the crate, and of all other functions no more is left in it than their
contracts: the prover says of an edited function which of its own goals aren't proved. Edits of one function are tried in
several copies, each under a name of its own, which one process reads as libraries beside a crate without text: so what
is below is loaded once, and no lines to start proofs with are made.

Where the prover says only that a function calls one which isn't proved, the edit is tried once more with the bodies and
proofs of all that the function calls. So is at once an edit with a line `by:`, in one copy with others where it changes
that function alone, and else in a copy of its own, as is an edit that changes the bodies of several functions.

Before that, the same functions are tried without an edit, in the same form, and what was proved is begun with: one that
isn't proved then, for its own sake, fails the crate. With --proved that is left out, for crates that a gate has just
proved as they are: of all that a proof may name, a copy lacks no more than the contracts' proofs of other functions, and
an edit whose proof lacks a name shows nothing. Another function that isn't proved for its own sake beside edits fails
them, too. With --gate it is left out, too, and a crate is begun with once a gate has proved it, which says so by a
line with the crate's name in PIPE. Until that has proved all crates, half of the processors are used.

An edit is refused if the prover doesn't prove the edited function for its own sake, and names a goal of its contract,
or a fault in the function's proof by hand. One that is tried alone is refused if one of its functions isn't proved so.
It fails if the function is proved, if it can't be applied or compiled, and if it shows nothing of the contract: where
the goals that aren't proved are only that a number fits, an index is within or a divisor isn't 0; where the prover
doesn't cover the form of the new body; where a proof by hand only lacks names that the edit took away; and where its
twin isn't proved, so that the right body in this form is refused, too. Change a value then, and keep the form and the
names. Where only the invariant of a loop isn't proved, which is a part of the present proof, or only what a call
requires, the line says so, and where the edit owes a twin. Twins are tried as edits are, beside them; one that isn't
proved there is tried once more beside twins alone. Where something is wrong with one of those that a process tries, each
half is tried, and so on, until each that can't be is told by its name.

The libraries are those of FOLDER, each in a folder of its crate's name, and else those in crates/*/out. Where they
can't be used together, or one in crates/*/out is older than its crate's text, that is one failure, and nothing is
tried. What `rt check` kept is begun with, if there is any. How many were refused and how many failed is the last line,
and goes to the file FILE. No edit at all fails."""
import argparse
import concurrent.futures
import copy
import functools
import os
import re
import shutil
import subprocess
import sys
import tempfile
import threading
import time

from edits import FOLDER, FUNCTION, TOP, Edit, Failed, body_at, function_at, place_of, text_of

PARTS = ("src", "specs", "proofs")
# So many edits of a crate one process tries at most, and so many copies: those of larger crates are the end of the gate.
MOST, COPIES = 36, 4
# The crate without text, beside which a process reads copies of another as libraries.
ROOT = "wrong_bodies"
# Where a type is declared.
TYPE = re.compile(r"^ *(?:pub(?:\([a-z]+\))? )?(?:struct|enum) (\w+)", re.M)
STATED = re.compile(r"^fn (\S+): (.*)$", re.M)
# What the prover says of libraries that were built of different texts.
UNUSABLE = re.compile(r"^.*error\[unusable-built-library\].*$", re.M)
# What is said of an edit that shows nothing of the contract: it changes the form, and not a value alone.
LACKS_NAMES = "only the names are missing that the edit took away"
NOT_COVERED = "the prover doesn't cover the form of the new body"
SAFE = "only a number may not fit, or an index not be within, in the new body"
# What it says of a function whose own goals are all proved, and of one of whose goals some weren't tried.
UNPROVED_CALLS = "no proof: it calls "
WAITING = re.compile(r"^note: `search` has not tried the goals of `([^`]+)`", re.M)
# What the compiler says of a text that it doesn't take.
ERROR = re.compile(r"^.*\berror\[[\w-]+\].*$", re.M)
# The goals that `search` left open, one of them, and those that no contract states.
GOALS = re.compile(r"`search` did not prove ((?:`[^`]+`(?:, )?)+)")
GOAL = re.compile(r"`([^`]+)`")
SAFETY = re.compile(r"overflow_|nonzero_|bounds-|slice_bounds-|offset_bounds-|(?:prove-)?unreachable-requires")
# Goals of the present proof, and of what a call requires, which tell less than those of the contract.
LOOP, REQUIRES = re.compile(r"-(?:init|preserved|smaller)\b"), re.compile(r"-requires\b")
PROVED = "NOT REFUSED"
LESS = ("", ", only by the invariant of a loop", ", only by what a call requires")
# What the prover notes of a goal that isn't proved, and the line that `check` makes of it, with the function.
NOTED = re.compile(r"^note: (?:\./)?(src/[^:]+):(\d+):\d+: it is not proved .*\(`([^`]+)`\)(?:;.*)?$", re.M)
NOTED_OF = re.compile(r"^noted (.+): (\S+)$", re.M)
# What is wrong with the answer of a goal.
ANSWER = re.compile(r": error: `([^`]+)`: ")
# What a proof says that cites a name which the edit took away, or a declaration that was rejected for one.
NAMES = re.compile(r"has no field|is not in scope|has no `|was not admitted|rattle does not read"
                   r"|is not admitted: rejected|, which was rejected, ")


class Unusable(Exception):
    """Why the libraries can't be used together."""


def listed():
    """Each crate of crates.txt, with the crates and libraries that it uses."""
    with open(f"{TOP}/crates.txt") as file:
        lines = [line.split("#")[0].split(":") for line in file if ":" in line.split("#")[0]]
    return {line[0].split()[0]: line[1].split() for line in lines}


class Gate:
    """Which crates are proved, and how many provers may run beside what proves the others."""

    def __init__(self, names, pipe):
        cores = len(os.sched_getaffinity(0))
        beside = cores if pipe is None else max(1, cores // 2)
        self.proved, self.free = {name: threading.Event() for name in names}, threading.Semaphore(beside)
        if pipe is None:
            for event in self.proved.values():
                event.set()
        else:
            threading.Thread(target=self.follow, args=(pipe, cores - beside), daemon=True).start()

    def follow(self, pipe, more):
        """Takes the names of those that are proved, and more processors after the last one."""
        with open(pipe) as names:
            for name in names:
                self.proved[name.strip()].set()
                if all(event.is_set() for event in self.proved.values()):
                    break
        self.free.release(more)


class Crate:
    """A crate, and how the prover is called on it."""

    def __init__(self, name, uses, built, gate):
        self.name, self.folder, self.gate = name, f"{TOP}/crates/{name}", gate
        place = lambda it: f"{built}/{it}" if built else f"{TOP}/crates/{it}/out/rlib"
        kit = os.path.dirname(subprocess.run(["rt", "doc"], capture_output=True, text=True, check=True).stdout.strip())
        rlibs = f"{kit}/rlibs"
        below, new = set(), {*uses[name]} & {*uses}
        while new:
            below, new = below | new, {it for one in new for it in uses[one] if it in uses} - below - new
        libraries = [f"std={rlibs}/std.rlib"]
        for it in uses[name]:
            libraries.append(f"{it}={place(it)}/{it}.rlib" if it in uses else f"{it}={rlibs}/{it}.rlib")
        self.below, self.is_by_hand = {it: f"{place(it)}/{it}.rlib" for it in sorted(below)}, not built
        folders = [rlibs, *sorted(place(it) for it in below)]
        self.root = "src/main.rt" if os.path.isfile(f"{self.folder}/src/main.rt") else "src/lib.rt"
        self.words = [f"{kit}/bin/rattle", "check", "--crate-name", ROOT, f"{ROOT}/src/lib.rt", "--jobs", "1"]
        self.words += [word for it in libraries for word in ("--extern", it)]
        self.words += [word for it in folders for word in ("-L", f"dependency={it}")]
        self.words += ["--antt-project", f"{kit}/rattle/logic/antt-project.json", "--logic-built", f"{kit}/logic_built"]

    def hold_libraries(self):
        """Raises what is wrong with the libraries below: one that isn't there, or was built of other texts than there
        are, by hand. `rt` stamps a library when it is built."""
        for it, library in self.below.items():
            stamp = f"{os.path.dirname(library)}/stamp"
            if not os.path.isdir(library) or self.is_by_hand and not os.path.isfile(stamp):
                raise Unusable(f"{it} isn't built")
            texts = [f"{at}/{name}" for part in PARTS for at, _, names in os.walk(f"{TOP}/crates/{it}/{part}") for name in names]
            newer = [text for text in texts if self.is_by_hand and os.path.getmtime(stamp) < os.path.getmtime(text)]
            if newer:
                raise Unusable(f"{it} is older than {os.path.relpath(min(newer), TOP)}, and `rt check` builds it anew")

    def sources(self):
        """The files of its code, by their path below the crate."""
        for at, _, names in os.walk(f"{self.folder}/src"):
            yield from (os.path.relpath(f"{at}/{name}", self.folder) for name in names if name.endswith(".rt"))

    def take_others(self, copy, functions):
        """Leaves these functions of the copy their bodies and proofs, and all others no more than their contracts: a
        body that calls nothing, and a file that proves nothing."""
        for file in self.sources():
            with open(f"{copy}/{file}") as it:
                text = it.read()
            ends = [found.end() for found in FUNCTION.finditer(text)]
            others = [at for at in ends if function_at(file, text[:at]) not in functions]
            for at in others:
                folder = f"{copy}/proofs/{place_of(file, function_at(file, text[:at]))}"
                os.makedirs(folder, exist_ok=True)
                for name in os.listdir(folder):
                    if name.endswith(".antt"):
                        os.remove(f"{folder}/{name}")
                with open(f"{folder}/Proof.antt", "w"):
                    pass
            for at in reversed(others):
                text = without_body(text, at)
            with open(f"{copy}/{file}", "w") as it:
                it.write(text)

    @functools.cached_property
    def paths(self):
        """The path of each function below the crate, by the end of it that an edit names. Two have none, if both end so."""
        texts = {file: text_of(f"{self.folder}/{file}") for file in self.sources()}
        homes, paths = {}, {}
        for file, text in texts.items():
            for found in TYPE.finditer(text):
                homes.setdefault(found[1], []).append(file)
        for file, text in texts.items():
            for function in (function_at(file, text[: it.end()]) for it in FUNCTION.finditer(text)):
                # A method stands below its type, wherever its impl does.
                home = homes.get(re.split("::|[+]", function)[0], []) if "::" in function else []
                place = place_of(home[0] if len(home) == 1 else file, function)
                paths.setdefault(function, set()).add(place.replace("/", "::"))
        return {function: min(found) for function, found in paths.items() if len(found) == 1}

    def lay(self, copy, name, edits, functions, is_bare):
        """Lays out a copy of the crate with these edits, by this name: if it is bare, with the contracts alone of all
        functions but these."""
        for part in PARTS:
            if os.path.isdir(f"{self.folder}/{part}"):
                shutil.copytree(f"{self.folder}/{part}", f"{copy}/{part}")
        for file, at, old, new in sorted((it for edit in edits for it in edit.pairs), reverse=True):
            text = text_of(f"{copy}/{file}")
            with open(f"{copy}/{file}", "w") as it:
                it.write(text[:at] + new + text[at + len(old) :])
        if is_bare:
            self.take_others(copy, functions)
        for path in (f"{at}/{it}" for at, _, names in os.walk(copy) for it in names if name != self.name):
            text = text_of(path)
            with open(path, "w") as it:
                it.write(re.sub(rf"(?<=\bRattle\.){self.name}\b|(?<![\w:]){self.name}(?=::)", name, text))

    def check(self, room, kept, copies):
        """What the prover says of each copy of the crate, over what was kept. A copy is given by its edits, the functions
        that are asked for, and whether it is bare: with the contracts of all others alone, and not with the bodies and
        proofs of those that they call."""
        names = [self.name, *(f"{self.name}_{number}" for number in range(2, len(copies) + 1))]
        words = [*self.words, "--incremental", kept]
        with tempfile.TemporaryDirectory(dir=room) as folder:
            for name, copy in zip(names, copies):
                self.lay(f"{folder}/{name}", name, *copy)
                words += ["--lib", f"{name}={name}/{self.root}"]
                words += [word for it in sorted(copy[1]) for word in ("--only", f"{name}::{self.paths.get(it, it)}")]
            os.makedirs(f"{folder}/{ROOT}/src")
            with open(f"{folder}/{ROOT}/src/lib.rt", "w") as it:
                it.write("//! A crate without text.\n")
            with self.gate.free:
                said = subprocess.run(words, cwd=folder, stdin=subprocess.DEVNULL, stdout=subprocess.PIPE,
                                      stderr=subprocess.STDOUT, text=True, errors="replace").stdout
            if found := UNUSABLE.search(said):
                raise Unusable(found[0])
            return [with_noted(f"{folder}/{name}", said_of(said, name, names)) for name in names]


def said_of(said, name, names):
    """What the prover says of a copy of a crate, and of none of these, as it says it of the crate alone. The first copy
    has the crate's own name."""
    begins = re.compile(rf"(?:\./|fn |note: |note: `search` has not tried the goals of `)?({'|'.join(names)})(?:/|::)")
    lines, owner = [], None
    for line in said.split("\n"):
        if not line.startswith(" "):
            found = begins.match(line)
            owner = found[1] if found else None
        if owner in (None, name):
            lines.append(line)
    text = re.sub(rf"(?<![\w/.])(?:\./)?{name}/(?=src/|specs/|proofs/)", "./", "\n".join(lines))
    return re.sub(rf"\b{name}\b", names[0], text)


def with_noted(copy, said):
    """What the prover says of a copy, and for each goal that it notes a line with the function that it stands in."""
    noted = [f"noted {named_at(copy, file, int(line))}: {goal}" for file, line, goal in NOTED.findall(said)]
    return "\n".join([said, *noted])


def copy_of(edits, is_bare):
    """A copy of the crate with these edits, of which their functions are asked for."""
    return edits, {function for edit in edits for function in edit.functions}, is_bare


def named_at(folder, file, line):
    """The function that stands at a line of a file below the folder, if one does: what is derived stands at its type."""
    text = text_of(f"{folder}/{file}")
    begin = sum(len(it) + 1 for it in text.split("\n")[: line - 1])
    end = text.find("\n", begin)
    found = [it for it in FUNCTION.finditer(text) if it.start() <= end]
    closed = re.compile(rf"^{found[-1][1]}}}$", re.M).search(text, found[-1].end()) if found else None
    return function_at(file, text[: end + 1]) if closed and begin <= closed.start() else "no function"


def without_body(text, at):
    """The text, where the function whose name ends there has a body that calls nothing, if its body has lines of its
    own."""
    begin = text.rfind("\n", 0, at) + 1
    body = body_at(text, begin)
    indent = re.match(" *", text[begin:])[0]
    return f"{text[: body[0]]}\n{indent}    loop {{}}\n{text[body[1] :]}" if body else text


def owner_of(function):
    """The function that a closure stands in; any other function is its own."""
    module, _, inside = function.partition("::fn::")
    names = inside.split("::")
    return "::".join([module, *names[: 2 if names[0][:1].isupper() else 1]]) if inside else function


def rank_of(goal):
    """How little a goal tells of the contract: an index of `LESS`."""
    return 2 if REQUIRES.search(goal) else 1 if LOOP.search(goal) else 0


def faults_in(folder, said):
    """What is wrong in the proofs of this folder, but that names aren't there and what comes of that, each with its rank."""
    # a message that has a long name goes on in an indented line
    wrong = re.findall(rf"^(?:\./)?{re.escape(folder)}\S+: error.*(?:\n  .*)?", said, re.M)
    wrong = [it.split("\n")[0] for it in wrong if not NAMES.search(it)]
    goals = {it: next(iter(ANSWER.findall(it)), "") for it in wrong}
    return [(rank_of(goals[it]), it) for it in wrong if not SAFETY.match(goals[it])] or [(3, SAFE) for _ in wrong[:1]]


def why_of(function, crate, said):
    """What the prover says against the function itself, with its rank: the most telling."""
    stated = dict(STATED.findall(said))[function]
    folder = "proofs/" + function.removeprefix(f"{crate.name}::").replace("::", "/") + "/"
    if "does not cover" in stated:
        # of such a form a proof by hand is whole
        whole = faults_in(folder, said) if os.path.isfile(f"{crate.folder}/{folder}Proof.antt") else []
        return min(whole, default=(3, NOT_COVERED))
    found = GOALS.search(stated)
    # a proof by hand: what is wrong in its own files, and the goals that were left to `search`
    goals = GOAL.findall(found[1]) if found else goals_left(function, folder, said)
    shown = sorted((rank_of(it), it) for it in goals if not SAFETY.match(it))
    whys = [(shown[0][0], f"not proved: {', '.join(it for _, it in shown)}")] if shown else [(3, SAFE) for _ in goals[:1]]
    return min(whys + ([] if found else faults_in(folder, said)), default=None)


def goals_left(function, folder, said):
    """The goals of a function that `search` left open beside a proof by hand. If that proof lacks names, they tell nothing."""
    errors = re.findall(rf"^(?:\./)?{re.escape(folder)}\S+: error.*$", said, re.M)
    lacks = any(map(NAMES.search, errors))
    return [] if lacks else [goal for of, goal in NOTED_OF.findall(said) if function.endswith(f"::{of}")]


def named(function, stated):
    """The function's whole name, as the prover prints it."""
    found = [it for it in stated if it.endswith(f"::{function}")]
    if len(found) != 1:
        raise Failed(f"{len(found)} functions are named {function}")
    return found[0]


def stated_by(said):
    """What the prover says of each function."""
    stated = dict(STATED.findall(said))
    if (error := ERROR.search(said)) or not stated:
        raise Failed(f"it doesn't compile: {error[0] if error else said[:600]}")
    return stated


def verdict_on(whys, word, said):
    """The line of an edit whose function isn't proved, by the most telling of what the prover says against it; `word` is
    what it says of the function."""
    rank, why = min(whys, default=(3, LACKS_NAMES if NAMES.search(said) else word))
    return f"SHOWS NOTHING: {why[:160]}" if rank == 3 else f"refused{LESS[rank]}: {why[:160]}"


def judged_alone(crate, edit, said):
    """What came of an edit that was tried alone: what isn't proved then is so for its sake."""
    stated = stated_by(said)
    unproved = [it for it in (named(function, stated) for function in edit.functions)
                if not stated[it].startswith("proved")]
    if not unproved:
        return {edit.name: f"NOT REFUSED: {', '.join(edit.functions)} proved with it"}
    whys = [why for why in (why_of(it, crate, said) for it in unproved) if why]
    return {edit.name: verdict_on(whys + faults_in("proofs/", said), stated[unproved[0]], said)}


def judged(crate, edits, said, is_bare):
    """What came of the edits of a round that were judged. The others' functions call some that aren't proved."""
    stated = stated_by(said)
    edited = {named(edit.functions[0], stated): edit for edit in edits}
    unproved = {function for function, word in stated.items() if not word.startswith("proved")}
    below = {it: unproved & {*re.findall(r"`([\w:+]+)`", stated[it])} - {it} for it in unproved}
    waiting = {*WAITING.findall(said)}
    for function in unproved:
        if not is_bare and owner_of(function) not in edited and ("did not prove" in stated[function] or not below[function]):
            raise Failed(f"{function} isn't edited, and with it {function} is {stated[function]}")
    told = {}
    for function, edit in edited.items():
        own = {it for it in unproved if owner_of(it) == function}
        if not own:
            told[edit.name] = f"NOT REFUSED: {function} is proved with it"
            continue
        whys = [why for why in (why_of(it, crate, said) for it in sorted(own)) if why]
        if whys or any(not below[it] - own for it in own):
            told[edit.name] = verdict_on(whys, stated[min(own)], said)
        elif edit.is_twin and is_bare and all(stated[it].startswith(UNPROVED_CALLS) and it not in waiting for it in own):
            told[edit.name] = f"NOT REFUSED: {function} is proved with it, but for the bodies of those that it calls"
    return told


def try_without_edits(crate, room, kept, functions, is_bare):
    """Tries functions as they are: no edit shows anything of one that isn't proved then."""
    if not functions:
        return
    said = crate.check(room, kept, [([], functions, is_bare)])[0]
    stated = stated_by(said)
    for function in map(lambda it: named(it, stated), sorted(functions)):
        own = [it for it, word in stated.items() if owner_of(it) == function and not word.startswith("proved")]
        for _, why in filter(None, (why_of(it, crate, said) for it in own)):
            raise Failed(f"{function} isn't proved without an edit: {why}")
        if own and not is_bare:
            raise Failed(f"{function} isn't proved without an edit: {stated[own[0]]}")


def edits_of(crate, more):
    """The crate's edits, by their path below its folder, and whatever else is there, which is none."""
    folder = f"{FOLDER}/{crate}"
    rooms = [room for room in ("", "more/") if os.path.isdir(f"{folder}/{room}") and (more or not room)]
    return sorted(room + name for room in rooms for name in os.listdir(f"{folder}/{room}") if room or name != "more")


def take_kept(begun_with, kept):
    """Takes what was kept there, if anything was; of what `rt check` keeps a gate moves all, and then nothing is."""
    try:
        shutil.copytree(begun_with, kept)
    except (OSError, shutil.Error):
        shutil.rmtree(kept, ignore_errors=True)
        os.mkdir(kept)


def rounds_of(edits):
    """The edits in rounds of about the same size that don't depend on each other: an edit of each function, and no more
    than `MOST`."""
    of = {}
    for edit in edits:
        of.setdefault(edit.functions[0], []).append(edit)
    rounds = [[] for _ in range(max([-(-len(edits) // MOST), *map(len, of.values())]))]
    for group in sorted(of.values(), key=len, reverse=True):
        for edit, now in zip(group, sorted(rounds, key=len)):
            now.append(edit)
    return rounds


def each_of(edits):
    """A round for each of the edits."""
    return [[it] for it in edits]


def shares_of(rounds):
    """The rounds that each process tries, in a copy of the crate each."""
    size = sum(map(len, rounds)) / max(1, len(rounds))
    count = -(-len(rounds) // max(1, min(COPIES, int(MOST // max(1, size)))))
    return [rounds[at::count] for at in range(count)]


def begin(crate, edits, kept):
    """Tries the functions of these edits as they are, and keeps what was proved for the rounds to begin with."""
    whole = {function for it in edits if it.is_whole for function in it.functions}
    with tempfile.TemporaryDirectory() as room:
        try_without_edits(crate, room, kept, {it.functions[0] for it in edits if not it.is_whole}, is_bare=True)
        try_without_edits(crate, room, kept, whole, is_bare=False)
    return {}


def apart(begun_with, trying, crate, *edits):
    """Tries edits over a copy of what was kept there."""
    with tempfile.TemporaryDirectory() as room:
        take_kept(begun_with, f"{room}/kept")
        return trying(f"{room}/kept", crate, *edits)


def try_copies(kept, crate, rounds, is_bare):
    """Tries each of these rounds in a copy of the crate, in one process, and gives what came of those judged, and what is
    wrong with the others."""
    told, wrong = {}, {}
    with tempfile.TemporaryDirectory() as room:
        said = crate.check(room, kept, [copy_of(now, is_bare) for now in rounds])
    for now, text in zip(rounds, said):
        try:
            told |= judged_alone(crate, now[0], text) if now[0].is_alone else judged(crate, now, text, is_bare)
        except Failed as fault:
            wrong |= {it.name: f"FAILED: {fault}" for it in now}
    return told, wrong


def try_share(kept, crate, rounds, is_bare):
    """Tries these rounds, and gives what came of the edits judged. Where something is wrong with one of a round, each
    half of all such is tried."""
    told, wrong = try_copies(kept, crate, rounds, is_bare) if rounds else ({}, {})
    edits = [it for now in rounds for it in now]
    if len(edits) < 2:
        return told | wrong
    left, divided = [it for it in edits if it.name in wrong], rounds_of if is_bare else each_of
    for half in (left[: len(left) // 2], left[len(left) // 2 :]):
        told |= try_share(kept, crate, divided(half), is_bare)
    return told


def try_bare(kept, crate, rounds):
    """Tries rounds over the contracts of all other functions, and gives what came of the edits judged. A twin that isn't
    proved beside edits is tried beside twins alone."""
    told = try_share(kept, crate, rounds, is_bare=True)
    again = [it for now in rounds for it in now if it.is_twin and not told.get(it.name, PROVED).startswith(PROVED)]
    return told | try_share(kept, crate, rounds_of(again), is_bare=True)


def in_own(edit):
    """The edit, to be tried in a copy of its own, where what isn't proved is so for its sake."""
    own = copy.copy(edit)
    own.is_alone = True
    return own


def try_whole(kept, crate, edits):
    """Tries edits with the bodies and proofs of all that their functions call, and gives what came of each. What isn't
    clear beside others is tried in a copy of its own."""
    rounds = rounds_of([it for it in edits if not it.is_alone]) + each_of(it for it in edits if it.is_alone)
    told, _ = try_copies(kept, crate, rounds, is_bare=False)
    told = {name: what for name, what in told.items() if what.startswith(("refused", PROVED))}
    left = [in_own(it) if it.is_whole else it for it in edits if it.name not in told]
    told |= try_share(kept, crate, each_of(left), is_bare=False)
    # Each of the last ones calls itself, or one that isn't proved for its sake.
    last = [in_own(it) for it in left if it.name not in told]
    return told | try_share(kept, crate, each_of(last), is_bare=False)


def read(crate, names):
    """The edits of these names, and what is wrong with the others."""
    edits, lines = [], {}
    for name in names:
        try:
            if not name.endswith(".edit"):
                raise Failed("it is no edit")
            edits.append(Edit(crate, name))
        except Failed as fault:
            lines[name] = f"FAILED: {fault}"
    return edits, lines


def twin_of(edit):
    """The edit's twin, as an edit that must be proved."""
    twin = copy.copy(edit)
    twin.name, twin.pairs, twin.is_twin = f"the twin of {edit.name}", edit.twins, True
    return twin


def with_twins(lines, edits):
    """What came of edits: one that is refused shows nothing if its twin is, too."""
    for edit in edits:
        twin = lines.pop(f"the twin of {edit.name}", "NOT REFUSED")
        if not lines[edit.name].startswith("refused"):
            continue
        if not twin.startswith("NOT REFUSED"):
            lines[edit.name] = f"{'FAILED' if twin.startswith('FAILED') else 'SHOWS NOTHING'}: its twin: {twin}"
        elif edit.owes_twin():
            lines[edit.name] += " (it owes a twin)"
    return lines


def lines_of(pool, crate, names, options, kept):
    """What came of these edits of the crate."""
    crate.gate.proved[crate.name].wait()
    crate.hold_libraries()
    begun = time.monotonic()
    edits, lines = read(crate, names)
    gather = lambda *tasks: [lines.update(task.result()) for task in tasks]
    take_kept(f"{crate.folder}/out/incremental", kept)
    if not (options.proved or options.gate):
        try:
            gather(pool.submit(begin, crate, edits, kept))
        except Failed as fault:
            return [(crate.name, f"FAILED: {fault}")]
    tried = edits + [twin_of(it) for it in edits if it.twins]
    bare, whole = [it for it in tried if not it.is_whole], [it for it in tried if it.is_whole]
    shares = shares_of(rounds_of(bare))
    # The others begin with what the first leaves there.
    gather(*[pool.submit(try_bare, kept, crate, now) for now in shares[:1]])
    gather(*[pool.submit(apart, kept, try_bare, crate, now) for now in shares[1:]],
           *[pool.submit(apart, kept, try_whole, crate, whole) for _ in whole[:1]])
    left = [it for it in bare if it.name not in lines]
    gather(*[pool.submit(try_whole, kept, crate, left) for _ in left[:1]])
    seconds, twins = round(time.monotonic() - begun), len(tried) - len(edits)
    rounds = f"{sum(map(len, shares))} rounds of {len(shares)} processes and {seconds} seconds"
    print(f"{crate.name}: {len(edits)} edits and {twins} twins tried, in {rounds}", flush=True)
    return sorted((f"{crate.name}/{name}", what) for name, what in with_twins(lines, edits).items())


def options_of(words):
    """What the words ask for: where the libraries are, where the count goes, what is proved or will be, and what is
    tried."""
    parser = argparse.ArgumentParser()
    parser.add_argument("--libraries")
    parser.add_argument("--count")
    parser.add_argument("--proved", action="store_true")
    parser.add_argument("--gate")
    parser.add_argument("--all", action="store_true")
    parser.add_argument("names", nargs="*")
    return parser.parse_args(words)


def wanted_by(options):
    """The edits to be tried, by their crate."""
    wanted = {}
    rooms = [it for it in sorted(os.listdir(FOLDER)) if not it.endswith(".py") and it != "__pycache__"]
    for word in options.names or rooms:
        name, _, edit = word.partition("/")
        if not os.path.isdir(f"{FOLDER}/{name}") or not os.path.isdir(f"{TOP}/crates/{name}"):
            raise Failed(f"tests/edits/{name} is no folder of a crate")
        wanted.setdefault(name, []).extend([edit] if edit else edits_of(name, options.all))
    return {name: edits for name, edits in wanted.items() if edits}


def try_all(crates, wanted, options):
    """Tries the edits of these crates side by side, tells what came of each, and gives how many were refused and failed."""
    lines, most_first = [], sorted(wanted, key=lambda name: -len(wanted[name]))
    workers, crews = (concurrent.futures.ThreadPoolExecutor(it) for it in (len(os.sched_getaffinity(0)), len(wanted)))
    with tempfile.TemporaryDirectory() as room, crews, workers:
        tries = {name: crews.submit(lines_of, workers, crates[name], wanted[name], options, f"{room}/{name}")
                 for name in most_first}
        try:
            for name in wanted:
                told = tries[name].result()
                print("\n".join(map(": ".join, told)), flush=True)
                lines += told
        except Unusable as fault:
            workers.shutdown(cancel_futures=True)
            print(f"FAILED: the libraries can't be used: {fault}")
            return 0, 1
    refused = [what for _, what in lines if what.startswith("refused")]
    less = " and ".join(f"{sum(what.startswith(f'refused{it}:') for what in refused)}{it.removeprefix(',')}" for it in LESS[1:])
    print(f"{len(refused)} wrong bodies refused, of them {less}; {len(lines) - len(refused)} failed")
    return len(refused), len(lines) - len(refused)


def main():
    options, uses = options_of(sys.argv[1:]), listed()
    try:
        wanted = wanted_by(options)
        if not wanted:
            raise Failed("there is no edit")
        gate = Gate(uses, options.gate)
        refused, failed = try_all({name: Crate(name, uses, options.libraries, gate) for name in wanted}, wanted, options)
    except Failed as fault:
        print(f"FAILED: {fault}")
        refused, failed = 0, 1
    if options.count:
        with open(options.count, "w") as file:
            file.write(f"{refused} {failed}\n")
    return 1 if failed else 0


sys.exit(main())
