"""Fails unless each public function of the libraries has a wrong body that each `./test` tries, and each can be applied.

    uncovered.py

Run at the top of the repository. A library is a crate with a `lib.rt`, but for those of tests. Its public functions are
those that `lib.rt` exports, by name or with their type, and that have an `ensures` and a body: so no law, and none that
is another library's. A function has a wrong body if an edit of tests/edits/CRATE changes a line of it. Edits in the
folder `more`, which `./test` leaves out, count only for a method of `stamped_lock` that is one expression: most of those
hand a call on to the layer below, and some of them say for all that such a body is refused."""
import glob
import os
import re
import sys
import types

from edits import Edit, Failed

IMPL = re.compile(r"^impl(?:<(?:[^<>{]|<[^<>{]*>)*>)? (?:[\w:<>]+ for )?(\w+)[^{]*\{$.*?^\}$", re.M | re.S)
# The library whose methods of one expression may have their wrong body in `more`.
HANDS_ON = "stamped_lock"
# What a body of one expression has none of.
STATEMENT = re.compile(r";|\b(?:if|match|while|for|loop)\b")
# Of these no wrong body compiles, or none has the form of the right one: the only verdict that the first can refer to is
# the one that it answers; those of lent_table have a proof by hand of their few steps on the one pointer of its type; and
# those of stamped_value hand on what `close` gives, whose wrong bodies are tried.
WITHOUT = {"stamp_picture: Picture::verdict", "lent_table: Seat::value_mut", "lent_table: Seat::value_ref",
           "lent_table: Seat::leave", "lent_table: Left::tell", "lent_table: Ended::tell", "lent_table: Shared::load",
           "lent_table: Shared::load_beside", "stamped_value: StampedValue::into_inner",
           "stamped_value: RuledValue::into_inner"}
FUNCTION = re.compile(r'^( *)(pub )?(?:pub\(\w+\) )?(?:const )?(?:extern "C" )?fn (\w+)', re.M)


def text_of(path):
    with open(path, encoding="utf-8") as file:
        return file.read()


def functions_of(text):
    """The functions of a file that have a contract and a body: where each begins and ends, its name, and whether it is
    public."""
    impls = [(found.start(), found.end(), found[1]) for found in IMPL.finditer(text)]
    for found in FUNCTION.finditer(text):
        indent, begin = found[1], found.start()
        # the line that opens its body, or ends it, is the first that ends so and stands as far left as the function
        opened = re.compile(rf"^{indent}(?:\S.*)?[{{;}}]$", re.M).search(text, begin)
        if opened[0].endswith("{") and re.search(r"^ *ensures\b", text[begin:opened.start()], re.M):
            end = re.compile(rf"^{indent}}}$", re.M).search(text, opened.end()).end()
            owner = next((f"{name}::" for first, last, name in impls if first < begin < last), "")
            yield begin, end, owner + found[3], bool(found[2])


def exported(crate):
    """What a library exports by name."""
    lib = text_of(f"crates/{crate}/src/lib.rt")
    lists = re.findall(r"^pub use \w+::(.*?);", lib, re.M | re.S)
    return {name for names in lists for name in re.findall(r"\w+", names)}


def is_one_expression(text):
    """Whether the body of this function is a single expression, with no statement and no choice."""
    opened = re.compile(r"\{$", re.M).search(text)
    return not STATEMENT.search(text, opened.end())


def read_all():
    """The edits that can be applied, by their crate and folder, and what is wrong with the others."""
    edits, faults = {}, []
    for path in sorted(glob.glob("tests/edits/*/**/*.edit", recursive=True)):
        crate, name = path.removeprefix("tests/edits/").split("/", 1)
        try:
            edit = Edit(types.SimpleNamespace(name=crate, folder=f"crates/{crate}"), name)
            edits.setdefault(os.path.dirname(f"{crate}/{name}"), []).append(edit)
        except Failed as fault:
            faults.append(f"{path}: {fault}")
    return edits, faults


def places_in(crate, edits):
    """The places that edits of a crate change, by the file, and the functions that an edit's lines `by:` name."""
    for edit in edits:
        # the prover writes a type of one impl as `Type+Argument`
        by = {f"::{re.sub(r'[+][A-Za-z]+', '', name)}" for name in edit.by}
        for file, at, _, _ in edit.pairs:
            yield f"crates/{crate}/{file}", at, by


def is_covered(path, begin, end, name, places):
    """Whether an edit changes this function, or names it as the one that isn't to be proved with it."""
    return any(any(it.endswith(f"::{name}") for it in by) if by else file == path and begin <= at < end
               for file, at, by in places)


def main():
    count, missing, (edits, faults) = 0, [], read_all()
    for root in sorted(glob.glob("crates/*/src/lib.rt")):
        crate = root.split("/")[1]
        if crate.endswith("_tests"):
            continue
        names = exported(crate)
        places, more = ([*places_in(crate, edits.get(folder, []))] for folder in (crate, f"{crate}/more"))
        for path in sorted(glob.glob(f"crates/{crate}/src/*.rt")):
            text = text_of(path)
            for begin, end, name, is_public in functions_of(text):
                if is_public and name.split("::")[0] in names and f"{crate}: {name}" not in WITHOUT:
                    count += 1
                    hands_on = crate == HANDS_ON and is_one_expression(text[begin:end])
                    if not is_covered(path, begin, end, name, places + more if hands_on else places):
                        missing.append(f"{crate}: {name} ({path.split('/')[-1]})")
    if faults or missing:
        sys.exit("\n".join(faults + [f"no wrong body: {it}" for it in missing]))
    print(f"each of {count} public functions has a wrong body")


main()
