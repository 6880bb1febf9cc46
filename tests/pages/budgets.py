"""Fails where a page has more words than its budget, or a page has none.

    budgets.py

Run at the top of the repository. A word is what lies between spaces and has a letter or a digit; what a script
writes, between two marks, doesn't count."""
import glob
import re
import sys

BUDGETS = {
    "README.md": 1200, "CONTRIBUTING.md": 600, "CHANGELOG.md": 300, "docs/USING.md": 2630, "docs/C.md": 900,
    "docs/EXAMPLES.md": 500, "docs/TOUR.md": 1000, "docs/PROVED.md": 2940, "docs/LIMITS.md": 1350, "docs/JDK.md": 1240,
    "docs/FORMATS.md": 3240, "docs/JUDGING.md": 2200, "docs/DEFINITIONS.md": 1500, "docs/ARCHITECTURE.md": 2560,
    "docs/PERFORMANCE.md": 900, "docs/DECISIONS.md": 1870, "docs/STATUS.md": 700, "docs/CALLS.md": 250,
    "docs/BELIEVE.md": 150,
}
MOST = 25000
WRITTEN = re.compile(r"^<!-- written by .*?^<!-- end -->$", re.M | re.S)


def words_of(page):
    with open(page, encoding="utf-8") as file:
        return len(re.findall(r"\S*\w\S*", WRITTEN.sub("", file.read())))


def main():
    pages = sorted([*glob.glob("*.md"), *glob.glob("docs/*.md")])
    counts = {page: words_of(page) for page in pages}
    faults = [f"{page}: it has no budget" for page in pages if page not in BUDGETS]
    faults += [f"{page}: {count} words, over {BUDGETS[page]}" for page, count in counts.items()
               if count > BUDGETS.get(page, count)]
    total = sum(counts.values())
    if total > MOST:
        faults.append(f"{total} words in all, over {MOST}")
    if faults:
        sys.exit("\n".join(faults))
    print(f"{len(pages)} pages: {total} words, each within its budget")


main()
