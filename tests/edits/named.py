"""Fails unless each wrong body that a page names is one that each `./test` tries, with a twin if it owes one.

    named.py

Run at the top of the repository. A page names an edit as `CRATE/NAME`, where tests/edits has a folder of the crate. Those
of the folder `more` are left out by `./test`. Each row of a table of docs/PROVED.md that has wrong bodies names one. The
head of edits.py says what a twin is, and which edit owes one."""
import glob
import os
import re
import sys
import types

from edits import Edit, Failed

PAGES = ["README.md", "CONTRIBUTING.md", *sorted(glob.glob("docs/*.md"))]
PROVED = "docs/PROVED.md"
NAME = re.compile(r"`(\w+)/((?:more/)?\w+)`")
# A table, and its column of wrong bodies, which is the last one.
TABLE = re.compile(r"^\|[^\n]*\|Wrong body\|\n\|[-|]*\n((?:\|[^\n]*\|\n)+)", re.M)


def text_of(path):
    with open(path, encoding="utf-8") as file:
        return file.read()


def fault_of(crate, name):
    """What is wrong with an edit that is named so, if anything."""
    if not os.path.isfile(f"tests/edits/{crate}/{name}.edit"):
        return "there is no such edit"
    if name.startswith("more/"):
        return "./test doesn't try it"
    try:
        edit = Edit(types.SimpleNamespace(name=crate, folder=f"crates/{crate}"), f"{name}.edit")
    except Failed as fault:
        return str(fault)
    return "it owes a twin" if edit.owes_twin() else None


def main():
    names, faults = set(), []
    for page in PAGES:
        here = [found for found in NAME.findall(text_of(page)) if os.path.isdir(f"tests/edits/{found[0]}")]
        names |= {*here}
        faults += [f"{page}: {crate}/{name}: {why}" for crate, name in here if (why := fault_of(crate, name))]
    rows = [row for table in TABLE.findall(text_of(PROVED)) for row in table.splitlines()]
    faults += [f"{PROVED}: a row names no wrong body: {it[:90]}" for it in rows if not NAME.search(it.split("|")[-2])]
    if faults or not rows:
        sys.exit("\n".join(faults or [f"{PROVED} has no table of wrong bodies"]))
    print(f"{len(names)} wrong bodies are named, and each is tried")


main()
