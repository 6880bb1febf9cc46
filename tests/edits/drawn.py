"""Draws edits that owe a twin, and haven't one, and prints them.

    drawn.py COUNT SEED

Run at the top of the repository. The same seed draws the same of the same edits. A twin is written for each then, and
tried; one that isn't proved says that its edit shows nothing."""
import glob
import random
import sys
import types

from edits import Edit, Failed


def main():
    owing = []
    for path in sorted(glob.glob("tests/edits/*/**/*.edit", recursive=True)):
        crate, name = path.removeprefix("tests/edits/").split("/", 1)
        try:
            edit = Edit(types.SimpleNamespace(name=crate, folder=f"crates/{crate}"), name)
        except Failed:
            continue
        if edit.owes_twin():
            owing.append(f"{crate}/{name.removesuffix('.edit')}")
    count, seed = map(int, sys.argv[1:])
    print("\n".join(sorted(random.Random(seed).sample(owing, count))))
    print(f"{count} of {len(owing)} that owe a twin, drawn by {seed}", file=sys.stderr)


main()
