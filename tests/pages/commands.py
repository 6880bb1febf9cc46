"""Fails unless the command lines on the pages print what the pages say.

    commands.py STAMPED EXPLAIN PICTURE

Run at the top of the repository, with the programs `stamped`, `stamped_explain` and `stamped_picture`. A command stands indented behind `$ `, and what it
prints below it. `rt run --` is the program, and `../../examples` the folder of that name. What a run prints is the file `history.json` of the commands after it."""
import os
import subprocess
import sys
import tempfile

PAGES = ["docs/TOUR.md", "docs/FORMATS.md", "docs/JUDGING.md"]
INDENT = "    "


def text_of(path):
    with open(path, encoding="utf-8") as file:
        return file.read()


def commands_of(page):
    """The commands of a page, each with the lines that it is to print."""
    found = []
    is_open = False
    for line in text_of(page).split("\n"):
        if line.startswith(INDENT + "$ "):
            found.append((line[len(INDENT) + 2:], []))
            is_open = True
        elif is_open and line.startswith(INDENT):
            found[-1][1].append(line[len(INDENT):])
        else:
            is_open = False
    return found


def printed_by(command, programs, room):
    words = command
    for name, program in programs.items():
        words = words.replace(name, program)
    run = subprocess.run(["bash", "-c", words], cwd=room, capture_output=True, text=True, timeout=3600)
    return run.stdout + run.stderr


def check_page(page, programs, room):
    commands = commands_of(page)
    for command, wanted in commands:
        printed = printed_by(command, programs, room)
        if not wanted or printed != "\n".join(wanted) + "\n":
            sys.exit(f"{page}: {command}\nprints\n{printed}and not\n" + "\n".join(wanted))
        if printed.startswith('{"entries":'):
            with open(os.path.join(room, "history.json"), "w", encoding="utf-8") as file:
                file.write(printed)
    if not commands:
        sys.exit(f"{page} has no command")
    print(f"{page}: commands that print what it says: {len(commands)}")


def check_quoted(page, file):
    """The lines of the file, indented, are a block of the page."""
    lines = "".join(INDENT + line + "\n" for line in text_of(file).splitlines())
    if "\n\n" + lines + "\n" not in text_of(page) + "\n":
        sys.exit(f"{page} doesn't have the lines of {file}")


def main():
    stamped, explain, picture = (os.path.abspath(path) for path in sys.argv[1:])
    programs = {"rt run --": stamped, "stamped_explain": explain, "stamped_picture": picture}
    programs["../../examples"] = os.path.abspath("examples")
    with tempfile.TemporaryDirectory() as room:
        for page in PAGES:
            check_page(page, programs, room)
    check_quoted("docs/TOUR.md", "examples/first.json")
    for example in ["five_calls", "point", "registry", "price_board", "observed_handles"]:
        check_quoted("docs/EXAMPLES.md", f"crates/{example}/stdout")


main()
