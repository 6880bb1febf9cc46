"""Reads wrong bodies: what each changes, where that stands, and what its twin has there.

An edit is a file tests/edits/CRATE/NAME.edit or tests/edits/CRATE/more/NAME.edit, in the form of the kit's must-fail
edits: a line `file:`, then pairs of lines `old:` and `new:`. An old text stands once in its file, or behind a line
`in: FUNCTION` once in the body of that function.

What an edit changes lies in a body. With a line `by: FUNCTION`, which names a function that must not be proved with it,
it lies in a body or a constant, or is other code, as a field or a bound, that the edit's new bodies need. Never is it a
contract, a definition, an attribute or another text that the prover alone reads, or a file that isn't of `src`.

Behind `new:` may stand `twin:`, with the form of the new text and the meaning of the old one. An edit owes a twin if a
proof by hand stands for its function, unless it keeps the form of what it changes: the right body is its twin then."""
import functools
import glob
import os
import re

FOLDER = os.path.dirname(os.path.abspath(__file__))
TOP = os.path.dirname(os.path.dirname(FOLDER))
KEYS = ("file", "by", "in", "old", "new", "twin")
FUNCTION = re.compile(r'^( *)(?:pub(?:\([a-z]+\))? )?(?:const )?(?:extern "C" )?fn (\w+)', re.M)
IMPL = re.compile(r"^impl(?:<((?:[^<>{]|<[^<>{]*>)*)>)? (?:([\w:]+)(?:<(\w*)[^{]*>)? for )?([^{]+?) *(?:where [^{]*)?\{", re.M)
CONSTANT = re.compile(r"^ *(?:pub(?:\([a-z]+\))? )?(?:const|static) \w+:.*?;$", re.M | re.S)
# Comments and strings, in which nothing begins, and what begins a text that the prover alone reads, or an attribute.
BEGINS = re.compile(r"""//[^\n]*|"(?:[^"\\]|\\.)*"|'(?:[^'\\\n]|\\.)'|(?P<text>\b(?:requires|ensures)\b[^{;]*|\bghost\b[^{;,\n]*|#!?(?=\[))""")
BRACKETS = {"{": 1, "[": 1, "(": 1, "}": -1, "]": -1, ")": -1}
# The parts of a text: a name, with its path and its fields, or a value; a comparison or a sum; and any other sign.
PART = re.compile(r"""(?P<leaf>b?'(?:[^'\\\n]|\\.)'|b?"(?:[^"\\]|\\.)*"|\w+(?:::\w+)*(?:\.\w+(?![\w(]|::))*)|(?P<sign>=>|->|::|[=!<>]=|&&|\|\||<<|>>|\.\.=?|\S)""")
KEYWORDS = {*"as break const continue else for if in let loop match move mut ref return unreachable while".split()}
SUMS = {*"== != <= >= < > && || << >> .. ..= + - * / % ^ & |".split()}


class Failed(Exception):
    """What is wrong with an edit or a crate."""


def text_of(path):
    """The text of a file of the repository."""
    if not os.path.isfile(path):
        raise Failed(f"there is no file {os.path.relpath(path, TOP)}")
    with open(path, encoding="utf-8") as file:
        return file.read()


def function_at(file, before):
    """The function that a file's text ends in: the end of its path, as the prover prints it."""
    found, impl = [*FUNCTION.finditer(before)], [*IMPL.finditer(before)]
    module = file.removeprefix("src/").removesuffix(".rt").replace("/", "::")
    if not found:
        raise Failed(f"{file}: no function stands before an edit")
    name = found[-1][2]
    if found[-1][1] and impl:
        parameters, trait, of_trait, of = impl[-1].groups(default="")
        # A `drop` stands below its type.
        trait = "" if trait == "Drop" else trait
        return f"{in_part(of, before) or type_name(of, parameters)}{trait.split('::')[-1]}{of_trait}::{name}"
    return name if module in ("lib", "main") else f"{module}::{name}"


def type_name(of, parameters):
    """A type as the prover prints it in a path: `Option<Stamp>` as OptionStamp, without the impl's parameters, and
    a pair of those as Tuple2."""
    pair = re.fullmatch(r"\(\w+(?:, \w+)+\)", of)
    if pair:
        return f"Tuple{of.count(',') + 1}"
    dropped = re.findall(r"(?:const )?(\w+)", parameters.split(":")[0]) + re.findall(r", *(?:const )?(\w+)", parameters)
    words = re.findall(r"\(\)|'\w+|\w+", of)
    kept = [word for word in words if word[0] != "'" and word not in dropped]
    return "".join("Unit" if word == "()" else word[0].upper() + word[1:] for word in kept)


def in_part(of, before):
    """A type of which the impl gives some arguments and leaves others to their defaults, as the prover prints it;
    nothing for any other."""
    name, _, given = of.removesuffix(">").partition("<")
    declared = re.search(rf"^pub struct {name}<((?:[^<>{{]|<[^<>]*>)*)>", before, re.M)
    outside = lambda text: re.sub(r"<[^<>]*>", "", text).split(",")
    is_part = given and declared and len(outside(given)) < len(outside(declared[1]))
    return "+".join([name, *re.findall(r"\w+", given)]) if is_part else ""


def place_of(file, function):
    """The folder of a function's proof, below `proofs`."""
    module, place = file.removeprefix("src/").removesuffix(".rt"), function.replace("::", "/")
    is_whole = module in ("lib", "main") or place.startswith(f"{module}/")
    return place if is_whole else f"{module}/{place}"


def body_at(text, begin):
    """Where the body of the function that begins there begins and ends, if it has lines of its own: they stand between
    two braces at the ends of lines that are indented as the function is."""
    indent = re.match(" *", text[begin:])[0]
    opened = re.compile(rf"^{indent}(?:\S.*)?[{{;}}]$", re.M).search(text, begin)
    if not opened or not opened[0].endswith("{"):
        return None
    return opened.end(), re.compile(rf"^{indent}}}$", re.M).search(text, opened.end()).start()


@functools.cache
def bodies_of(file, text):
    """Where the bodies of a file's text begin and end, with the function of each."""
    bodies = [(body_at(text, found.start()), function_at(file, text[: found.end()])) for found in FUNCTION.finditer(text)]
    return [(*body, function) for body, function in bodies if body]


def closed_at(text, at):
    """Where the bracket that is opened there is closed."""
    depth = 0
    for at in range(at, len(text)):
        depth += BRACKETS.get(text[at], 0)
        if depth == 0:
            break
    return at + 1


@functools.cache
def unread_in(text):
    """Where the texts stand in a file's text that the prover alone reads, and the attributes: no code of its own."""
    at, found = 0, []
    while begun := BEGINS.search(text, at):
        at = begun.end()
        if begun["text"] is None:
            continue
        while text[at : at + 1] in ("{", "["):
            at = closed_at(text, at)
            # a definition behind its type, or what an import of names ends in
            at += len(re.match(r"(?: *= *(?=\{))?", text[at:])[0])
        found.append((begun.start(), at))
    return found


def form_of(text):
    """The form of a text: its signs, with no more of its names and values, comparisons and sums than where they stand."""
    found = [it for it in PART.finditer(text) if it[0] != "!"]
    return [("a leaf" if it["leaf"] else "a sum" if it[0] in SUMS else it[0]) if it[0] not in KEYWORDS else it[0] for it in found]


def keeps_form(old, new):
    """Whether a text has the form of another, or all its parts in another order."""
    parts = lambda text: sorted(it[0] for it in PART.finditer(text))
    return form_of(old) == form_of(new) or parts(old) == parts(new)


class Edit:
    """A wrong body: the places that it changes, and the functions that it is refused by, by the ends of their paths. Its
    name is its path below the crate's folder."""

    def __init__(self, crate, name):
        """Reads the edit of this name of a crate, which stands in `crate.folder`."""
        self.name, self.pairs, self.twins, self.is_twin, self.folder = name, [], [], False, crate.folder
        by, of, old, file, inside = set(), None, None, None, None
        for key, value in self.lines(f"{FOLDER}/{crate.name}/{name}"):
            if (key == "new") != (old is not None) or key == "twin" and len(self.twins) >= len(self.pairs):
                raise Failed("an old text and a new one stand in pairs, and a twin's text behind them")
            if key == "file":
                file, inside = value, None
            elif key == "by":
                by.add(value)
            elif key == "in":
                inside = value
            elif key == "old":
                old = value
            elif key == "new":
                self.pairs.append((file, self.place(file, inside, old), old, value))
                old = None
            else:
                self.twins.append((*self.pairs[-1][:3], value))
        if not self.pairs or old is not None:
            raise Failed("an old text and a new one are missing")
        if self.twins and len(self.twins) != len(self.pairs):
            raise Failed("a twin has a text for each that is changed")
        edited = self.edited(bool(by))
        self.by, self.functions = by, sorted(by or edited)
        # Whether it is tried with the bodies of all that is called, and whether in a copy of its own.
        self.is_whole = bool(by) or len(edited) > 1
        self.is_alone = self.is_whole and not (len(self.functions) == 1 and self.lies_in(self.functions[0]))

    def lines(self, path):
        """The keys and values of its lines. A space behind a key is no part of the value."""
        for line in text_of(path).split("\n"):
            key, colon, value = line.partition(":")
            if line and (key not in KEYS or not colon):
                raise Failed(f"what is this line: {line}")
            if line:
                yield key, value.removeprefix(" ").strip() if key in KEYS[:3] else value.removeprefix(" ")

    def place(self, file, inside, old):
        """Where an old text stands in its file, or in the body of this function there."""
        if not file or not file.startswith("src/"):
            raise Failed(f"it changes what is no code: {file}")
        text = text_of(f"{self.folder}/{file}")
        places = [it.start() for it in re.finditer(re.escape(old), text)]
        if inside:
            bodies = [(begin, end) for begin, end, function in bodies_of(file, text) if function == inside]
            places = [at for at in places if any(begin <= at < end for begin, end in bodies)]
        if len(places) != 1 or not old:
            raise Failed(f"its text stands in {inside or file} {len(places)} times: {old}")
        return places[0]

    def edited(self, has_by):
        """The functions whose bodies have its places. It raises what is wrong with these."""
        functions = set()
        for file in {it[0] for it in self.pairs}:
            text = text_of(f"{self.folder}/{file}")
            unread = lambda it: [it[begin:end] for begin, end in unread_in(it)]
            for texts in filter(None, (self.pairs, self.twins)):
                if unread(text) != unread(self.applied(file, text, texts)):
                    raise Failed(f"it changes what the prover alone reads, as a contract or a definition, in {file}")
            for _, at, old, _ in (it for it in self.pairs if it[0] == file):
                inside = {function for begin, end, function in bodies_of(file, text) if begin <= at <= at + len(old) <= end}
                if not inside and not has_by:
                    raise Failed(f"it changes what stands outside of a body, which takes a line `by:`: {old}")
                constants = [it for it in CONSTANT.finditer(text) if it.start() <= at < it.end()]
                functions |= inside or {f"a constant of {file}" for _ in constants}
        if not functions:
            raise Failed("it changes neither a body nor a constant")
        return functions

    def lies_in(self, function):
        """Whether all that it changes lies in the body of this function."""
        bodies = lambda file: [it[:2] for it in bodies_of(file, text_of(f"{self.folder}/{file}")) if it[2] == function]
        within = lambda file, at, end: any(begin <= at and end <= closed for begin, closed in bodies(file))
        return all(within(file, at, at + len(old)) for file, at, old, _ in self.pairs)

    def applied(self, file, text, texts):
        """The text of a file with these texts in place of the old ones."""
        for _, at, old, new in sorted((it for it in texts if it[0] == file), reverse=True):
            text = text[:at] + new + text[at + len(old) :]
        return text

    def has_proof(self):
        """Whether a proof by hand stands for one of its functions."""
        places = {f"**/{it.replace('::', '/')}" if "::" in it else it for it in self.functions}
        found = lambda it: glob.iglob(f"{self.folder}/proofs/{it}/**/*.antt", recursive=True)
        return any(any(found(it)) for it in places)

    def keeps_form(self):
        """Whether it keeps the form of each text that it changes."""
        return all(keeps_form(old, new) for _, _, old, new in self.pairs)

    def owes_twin(self):
        """Whether nothing shows that the right body is proved in this form."""
        return not self.twins and self.has_proof() and not self.keeps_form()
