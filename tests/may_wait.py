"""Fails unless crates.txt gives each crate's functions that may wait as `may_wait`.

    may_wait.py

Run at the top of the repository. Such a function takes a runtime by the bound `Wait`, its own or that of its `impl`, and
so does `main` where others of the program do. Crates of tests are left out. These are the functions that the check
counts, which the gate compares with `may_wait`, too: gate_lines.py."""
import glob
import re
import sys

FUNCTION = re.compile(r'^ *(?:pub(?:\([a-z]+\))? )?(?:const )?(?:extern "C" )?fn \w+(?:[^{;]|;(?= *\w+\]))*', re.M)
# What stands behind a function's type.
CLAUSES = re.compile(r"\b(?:requires|ensures|ghost)\b.*", re.S)
BLOCK = re.compile(r"^(?:impl|pub trait|trait)\b[^{]*", re.M)
CRATE = re.compile(r"^(\w+)([^:\n]*):", re.M)


def text_of(path):
    with open(path, encoding="utf-8") as file:
        return file.read()


def heads_in(text):
    """The type of each function of a file, behind that of the `impl` or the trait that it stands in."""
    begins = [(found.start(), found[0]) for found in BLOCK.finditer(text)]
    for found in FUNCTION.finditer(text):
        block = [head for at, head in begins if at < found.start()] if found[0].startswith(" ") else []
        yield "".join(block[-1:]) + CLAUSES.sub("", found[0])


def waiting_in(crate):
    """How many functions of a crate may wait."""
    texts = [re.sub(r"//[^\n]*", "", text_of(path)) for path in glob.glob(f"crates/{crate}/src/**/*.rt", recursive=True)]
    heads = [head for text in texts for head in heads_in(text)]
    waiting = sum(bool(re.search(r"\bWait\b", head)) for head in heads)
    return waiting + (waiting > 0 and any(re.search(r"\bfn main\b.*\bHostRuntime\b", head) for head in heads))


def main():
    wrong, count = [], 0
    for crate, said in CRATE.findall(re.sub(r"#[^\n]*", "", text_of("crates.txt"))):
        given, waiting = re.search(r"\bmay_wait=(\d+)", said), 0 if "tests_may=" in said else waiting_in(crate)
        count += waiting
        if waiting != int(given[1] if given else 0):
            wrong.append(f"crates.txt: {crate} has {waiting} functions that may wait, and not {given[1] if given else 0}")
    if wrong:
        sys.exit("\n".join(wrong))
    print(f"crates.txt: {count} functions may wait")


main()
