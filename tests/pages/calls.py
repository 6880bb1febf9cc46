"""Writes the index of all public calls of the libraries into docs/CALLS.md, or fails unless it stands there.

    calls.py [--write]

Run at the top of the repository. A library is a crate with a `lib.rt`, but for those of tests. What `lib.rt` exports is
listed by its file, in the file's order: the signature, an enum's variants or a struct's public fields, and the first
sentence of its doc comment. The names that it hands on from another library stand before that. What lies between the two marks on the page is the script's, and the
rest is kept."""
import glob
import itertools
import re
import sys

PAGE = "docs/CALLS.md"
BEGIN, END = "<!-- written by tests/pages/calls.py -->\n", "<!-- end -->\n"
ITEM = re.compile(r"^( *)(pub )?(?:(?:const|unsafe|extern \"C\") )*(fn|enum|struct|trait|const|type) (\w+)")
OWNER = re.compile(r"^(?:impl(?:<(?:[^<>]|<[^<>]*>)*>)? (\w+)|(pub trait) (\w+))")
BEHIND = re.compile(r"[{;]|//|\n *(?:requires|ensures|ghost|where)\b")


def text_of(path):
    with open(path, encoding="utf-8") as file:
        return file.read()


def first_sentence(comment):
    """The first sentence of a doc comment, on one line."""
    text = re.sub(r"\s+", " ", " ".join(comment)).strip()
    found = re.match(r"(.*?[.:])(?: |$)(?![a-z])", text)
    return (found[1] if found else text).rstrip(".:")


# Signatures.

def depths(text):
    """How many brackets are open behind each sign of a text. The `>` of an arrow is no bracket."""
    depth = 0
    for at, sign in enumerate(text):
        depth += (sign in "(<[") - (sign in ")]" or sign == ">" and text[at - 1] != "-")
        yield at, depth


def bracketed(text):
    """A text that begins with a bracket, up to the bracket that closes it, and what comes behind."""
    end = 1 + next(at for at, depth in depths(text) if depth == 0)
    return text[:end], text[end:]


def parts_of(text):
    """What the commas part that stand in no bracket."""
    commas = [at for at, depth in depths(text) if depth == 0 and text[at] == ","]
    ends = itertools.pairwise([-1, *commas, len(text)])
    return [text[one + 1:two].strip() for one, two in ends if text[one + 1:two].strip()]


def header(text):
    """The front of an item, up to its clauses or its body, on one line."""
    end = next(at for at, depth in depths(text) if depth == 0 and BEHIND.match(text, at))
    line = re.sub(r"\s+", " ", text[:end]).strip()
    return re.sub(r"([(<]) ", r"\1", re.sub(r",? ([)>])", r"\1", line))


def with_impl(signature):
    """A function's signature, in which an argument has the bound of its type parameter, if this stands nowhere else:
    `f(rt: &impl Wait)` for `f<R: Wait>(rt: &R)`."""
    name, rest = re.fullmatch(r"(\w+)(.*)", signature).groups()
    if not rest.startswith("<"):
        return signature
    given, rest = bracketed(rest)
    kept = parts_of(given[1:-1])
    for parameter in [*kept]:
        letter, _, bound = parameter.partition(": ")
        others = " ".join(it for it in kept if it != parameter)
        stands = re.search(rf": (?:&(?:mut )?)?({letter})\b", bracketed(rest)[0])
        if bound and stands and len(re.findall(rf"\b{letter}\b", rest + others)) == 1:
            shown = f"(impl {bound})" if " + " in bound else f"impl {bound}"
            rest = rest[:stands.start(1)] + shown + rest[stands.end(1):]
            kept.remove(parameter)
    return name + (f"<{', '.join(kept)}>" if kept else "") + rest


def members(kind, text):
    """The variants of an enum, or the public fields of a struct, in braces on one line; nothing where there are none."""
    opened = re.search(r"^[^{;(]*\{", text)
    if kind not in ("enum", "struct") or not opened:
        return ""
    body, _ = bracketed(re.sub(r"//[^\n]*|#\[[^\n]*\]\n", "", text[opened.end() - 1:].replace("{", "(").replace("}", ")")))
    plain = [re.sub(r" by \( .* \)$", "", re.sub(r"\s+", " ", it)) for it in parts_of(body[1:-1])]
    parts = [re.sub(r" \( (.*?),? \)$", r" { \1 }", it) for it in plain]
    if kind == "struct":
        parts = [it.removeprefix("pub ") for it in parts if it.startswith("pub ")]
    return f" {{ {', '.join(it.partition(' = ')[0] for it in parts)} }}" if parts else ""


# Items.

class Item:
    """A public function, type or constant of a file, with the type that it belongs to, if any."""

    def __init__(self, kind, name, owner, comment, path, text):
        self.name, self.owner, self.path = name, owner, path
        self.told = first_sentence(comment)
        path_of = f"{owner}::" if owner else ""
        self.signature = path_of + with_impl(header(text)) if kind == "fn" else f"{kind} {path_of}{header(text)}{members(kind, text)}"

    def row(self):
        return f"- `{self.signature}`: {self.told}."


def items_of(path):
    """The public items of a file."""
    comment, owner, of_trait, found, lines = [], "", False, [], text_of(path).split("\n")
    for number, line in enumerate(lines):
        if opened := OWNER.match(line):
            owner, of_trait = opened[1] or opened[3], bool(opened[2])
        if line.startswith("}"):
            owner, of_trait = "", False
        item = ITEM.match(line)
        if item and (item[2] or of_trait and item[1]):
            text = "\n".join([line[item.start(4):], *lines[number + 1:]])
            found.append(Item(item[3], item[4], owner if item[1] else "", comment, path, text))
        stripped = line.strip()
        if stripped.startswith("///"):
            comment = comment + [stripped[3:]]
        elif not stripped.startswith("#["):
            comment = []
    return found


def uses_of(crate):
    """The modules and crates from which a library exports names, each with these."""
    lib = text_of(f"crates/{crate}/src/lib.rt")
    uses = re.findall(r"^pub use (\w+)::(.*?);", lib, re.M | re.S)
    return [(source, re.findall(r"\w+", names)) for source, names in uses]


def exported(crate):
    """The items of a library that it exports, in the order of its files."""
    modules = re.findall(r"^pub mod (\w+);", text_of(f"crates/{crate}/src/lib.rt"), re.M)
    names = {name for _, names in uses_of(crate) for name in names}
    for path in sorted(glob.glob(f"crates/{crate}/src/*.rt")):
        module = path.split("/")[-1][:-3]
        for item in items_of(path):
            if item.owner in names or not item.owner and (item.name in names or module in modules):
                yield item


# The page.

def section_of(crate, libraries):
    """The section of a library: what it hands on from others, and its own items by their files."""
    head = first_sentence(re.findall(r"^//! ?(.*)$", text_of(f"crates/{crate}/src/lib.rt"), re.M))
    lines = [f"## {crate}", "", f"{head}."]
    for source, names in uses_of(crate):
        if source in libraries:
            lines += ["", f"Handed on from [{source}](#{source}): {', '.join(f'`{it}`' for it in names)}."]
    for path, items in itertools.groupby(libraries[crate], lambda it: it.path):
        lines += ["", f"[{path.split('/')[-1]}](../{path}):", "", *(it.row() for it in items)]
    return "\n".join(lines) + "\n"


def main():
    crates = sorted(path.split("/")[1] for path in glob.glob("crates/*/src/lib.rt"))
    libraries = {crate: [*exported(crate)] for crate in crates if not crate.endswith("_tests")}
    untold = [f"{it.path}: {it.name} has no doc comment" for items in libraries.values() for it in items if not it.told]
    if untold:
        sys.exit("\n".join(untold))
    written = "\n".join(section_of(crate, libraries) for crate in libraries)
    page = text_of(PAGE)
    if page.count(BEGIN) != 1 or page.count(END) != 1:
        sys.exit(f"{PAGE}: the marks are missing: {BEGIN.strip()} and {END.strip()}")
    before, after = page[: page.index(BEGIN) + len(BEGIN)], page[page.index(END):]
    if sys.argv[1:] == ["--write"]:
        with open(PAGE, "w", encoding="utf-8") as file:
            file.write(f"{before}\n{written}\n{after}")
    elif page != f"{before}\n{written}\n{after}":
        sys.exit(f"{PAGE} isn't what the code says: run tests/pages/calls.py --write")
    print(f"{PAGE}: {sum(map(len, libraries.values()))} calls and types of {len(libraries)} libraries, as in the code")


main()
