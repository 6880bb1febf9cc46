"""Fails unless each block of code on the pages stands word for word in a source of their crates.

    quoted.py

Run at the top of the repository. Blocks of Rust stand in `src`, blocks of antt in `proofs`. A block of a
method is quoted without the indentation of its `impl`."""
import glob
import re
import sys
import textwrap

PAGES = {
    "README.md": ["counter"],
    "docs/EXAMPLES.md": ["price_board"],
    "docs/JUDGING.md": ["observed_handles"],
    "docs/USING.md": ["counter", "config"],
}
BLOCK = re.compile(r"^```(rust|antt)\n(.*?)^```$", re.DOTALL | re.MULTILINE)
SOURCES = {"rust": "src/**/*.rt", "antt": "proofs/**/*.antt"}


def text_of(path):
    with open(path, encoding="utf-8") as file:
        return file.read()


def sources_of(crate, language):
    paths = glob.glob(f"crates/{crate}/{SOURCES[language]}", recursive=True)
    return ["\n" + text_of(path) for path in sorted(paths)]


def stands_in(block, texts):
    """Whether the block's lines stand in a text, as they are or indented as in an `impl`."""
    forms = ["\n" + textwrap.indent(block, indent) for indent in ["", "    "]]
    return any(form in text for form in forms for text in texts)


def check_page(page, names):
    blocks = BLOCK.findall(text_of(page))
    quoted = set()
    for language, block in blocks:
        crates = [name for name in names if stands_in(block, sources_of(name, language))]
        if not block.strip() or not crates:
            sys.exit(f"{page} quotes what stands in none of {' '.join(names)}:\n{block}")
        quoted.update(crates)
    if quoted != set(names):
        sys.exit(f"{page} quotes nothing of {' '.join(sorted(set(names) - quoted))}")
    print(f"{page}: quotes found in their sources: {len(blocks)}")


def main():
    for page, names in PAGES.items():
        check_page(page, names)


main()
