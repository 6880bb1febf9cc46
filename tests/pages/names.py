"""Holds the names on the pages to the repository: a name that is gone, or stands in another file, fails.

    names.py

Each word of four letters or more that a page has between backticks, outside its blocks of code, must be a word of the
sources, the tests, the benches or the examples, or the name of a file. Where the name of a definition or a function is
followed by its file in brackets, as `Decides` (`Decision.antt`), it must stand in a file of that name."""
import glob
import os
import re
import sys

TOP = os.path.join(os.path.dirname(os.path.abspath(__file__)), "..", "..")
ROOMS = ["crates/*/src", "crates/*/specs", "crates/*/proofs", "tests", "bench", "examples", "recorders"]
# Words that are right and stand nowhere else: of the kit's `rt`, of C and of Linux; file name patterns; former names;
# and texts that a user gives or gets.
ELSEWHERE = {
    "peek", "statements", "depends", "package", "vendor", "help", "dac8208d650f15bf",
    "compare_exchange_strong", "perf", "count_rs", "unchecked",
    "Fields", "MODULE",
    "RecordedStampedLock", "recorded_handles",
    "e400", "races", "runners", "overflow_cast",
}


def files():
    """The files that may have the names, by their paths below the top."""
    yield from (path for path in ("crates.txt", "test", "HANDLES") if os.path.isfile(os.path.join(TOP, path)))
    for room in ROOMS:
        for path in glob.glob(f"{TOP}/{room}/**/*", recursive=True):
            if os.path.isfile(path) and not path.startswith(os.path.abspath(__file__)):
                yield os.path.relpath(path, TOP)


def words_of(path):
    """The words of a file's text and of its name."""
    with open(os.path.join(TOP, path), encoding="utf-8", errors="replace") as file:
        return {*re.findall(r"\w+", file.read()), *re.findall(r"\w+", os.path.basename(path))}


def spans_of(text):
    """A page's text without its blocks of code, and what it has between backticks."""
    prose = re.sub(r"^```.*?^```", "", text, flags=re.S | re.M)
    return prose, re.findall(r"`([^`\n]+)`", prose)


def faults_of(page, words):
    """What is wrong with the names of a page; `words` has the words of each file."""
    with open(os.path.join(TOP, page), encoding="utf-8") as file:
        prose, spans = spans_of(file.read())
    known = set().union(*words.values()) | ELSEWHERE
    for name in sorted({it for span in spans for it in re.findall(r"\b[A-Za-z_]\w{3,}", span)} - known):
        yield f"{page}: nothing is named {name}"
    for name, where in re.findall(r"`([A-Z]\w+|\w+_\w+)` \(`([\w/]+\.(?:antt|rt))`", prose):
        if not any(name in words[path] for path in words if path.endswith(f"/{where}")):
            yield f"{page}: {where} has no {name}"


def main():
    words = {path: words_of(path) for path in files()}
    pages = ["README.md", "CONTRIBUTING.md", "CHANGELOG.md", "bench/README.md",
             *sorted(f"docs/{it}" for it in os.listdir(f"{TOP}/docs") if it.endswith(".md"))]
    faults = [fault for page in pages for fault in faults_of(page, words)]
    print("\n".join(faults) or f"{len(pages)} pages: each name stands in the repository, and in the file that they say")
    return 1 if faults else 0


sys.exit(main())
