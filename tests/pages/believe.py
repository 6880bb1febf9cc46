"""Holds docs/BELIEVE.md to the code: for each of six promises the definitions that its contracts reach. And holds each
definition to its place: what a public contract reaches, or docs/USING.md offers, lies in `specs`, all else in
`specs/inner`.

    believe.py [--write | --unresolved]

A contract reaches what its clauses name, the views and invariants of the types in its signature, the traits that
bound them, and what all these name in turn, up to std and the kit. A name counts where its file imports or defines
it. Without an argument the page is compared with what would be written. `--write` writes it; `--unresolved` prints the
names that were passed over."""
import functools
import glob
import os
import re
import sys

TOP = os.path.join(os.path.dirname(os.path.abspath(__file__)), "..", "..")
PAGE = "docs/BELIEVE.md"
# Between backticks this page offers definitions of this crate to contracts that a user writes.
USING, USED = "docs/USING.md", "stamped_lock"
BEGIN, END = "<!-- written by tests/pages/believe.py -->", "<!-- end -->"
PROMISES = [
    ("The sequential lock", [("stamp_core", "decide"), ("stamp_core", "transition")]),
    ("Locks that threads share", [("stamp_threads", "RunningLock::once"), ("stamp_threads", "RunningLock::call")]),
    ("No torn read", [("stamp_threads", "WideRecord::get_into"), ("stamp_threads", "RuledRecord::get_once"),
                      ("stamped_lock", "RecordHandle::get"), ("stamped_lock", "WideHandle::get_into"),
                      ("stamped_lock", "CellHandle::get")]),
    ("No update is lost", [("stamped_lock", "RecordHandle::update"), ("stamped_lock", "RecordHandle::try_update"),
                           ("stamped_lock", "RecordHandle::update_once"), ("stamped_lock", "RecordHandle::put_if"),
                           ("stamped_lock", "WideHandle::update_in"), ("stamped_lock", "CellHandle::update")]),
    ("The judge of recorded histories", [("stamp_check", "check")]),
    ("The judge of observed histories", [("stamp_watch", "explain")]),
]
# What the prover's language and the code have of their own.
WORDS = {*"record let in where data module abbrev unfoldable pub do λ → × ¬ ⊥ ← _ = : *".split(),
         *"Type Unit tt Prim Self".split()}
MODELLED = "Value|view|invariant|also_owns|also_shares"
# A name, an operator or a number, with what is projected of it; a dot before it makes it a projection itself.
CHUNK = re.compile(r'(\.?)([^\s()\[\]{};,."]+)((?:\.[^\s()\[\]{};,."]+)*)')
LABEL = re.compile(r"([{;]\s*)[\w'?-]+(?=\s+=\s)")
USE = re.compile(r"use ([\w.'?-]+?)(?:\.{([^}]*)}| as (\w+))")
FUNCTION = r'(?:(?:const|unsafe|extern "") )*fn (\w+)'
TYPE = re.compile(r"^(?:pub(?:\(\w+\))? )?(struct|enum|type|trait|const(?! fn)) (\w+)", re.M)


class Item:
    """A definition, a declaration of a type, or a contract: where it stands, and what it is made of: the texts in the
    prover's language with the names in their scope, and those of the code."""

    def __init__(self, path, name, line, text, ghost="", types="", scope=None, bound=()):
        self.path, self.name, self.line = path, name, line
        self.lines = sum(bool(it.strip()) and not it.lstrip().startswith("#[") for it in text.splitlines())
        self.ghost, self.types, self.scope = LABEL.sub(r"\1", ghost), types, scope or {}
        self.bound = {*bound, *bound_in(ghost)}
        self.view = self.value = None

    @property
    def crate(self):
        return self.path.split("/")[1]

    @property
    def place(self):
        return f"{self.path}:{self.line}"


# Reading files.

@functools.lru_cache(None)
def text_of(path):
    """A file without its comments and without what stands in quotes; each line stays in its place."""
    with open(os.path.join(TOP, path), encoding="utf-8") as file:
        text = file.read()
    dropped = r"--[^\n]*" if path.endswith(".antt") else r"//[^\n]*|'(?:[^'\\\n]|\\.[^']*)'"
    quoted = '"(?:[^"\\\\]|\\\\.)*"'

    def left_of(found):
        return ('""' if found[0][0] == '"' else "") + "\n" * found[0].count("\n")

    return re.sub(f"{quoted}|{dropped}", left_of, text, flags=re.S)


def files(pattern):
    return sorted(os.path.relpath(it, TOP) for it in glob.glob(f"{TOP}/crates/{pattern}", recursive=True))


def closing(text, at):
    """Where the bracket closes that opens here."""
    depth = 0
    for found in re.compile(r"[({\[]|[)}\]]").finditer(text, at):
        depth += 1 if found[0] in "({[" else -1
        if depth == 0:
            return found.start()
    sys.exit(f"no end of: {text[at:at + 60]}")


def behind_generics(text, at):
    """The place behind the generic parameters that stand here, if any do."""
    depth = 0
    for found in re.compile(r"->|[<>]").finditer(text, at):
        if text[at] != "<":
            break
        depth += {"<": 1, ">": -1}.get(found[0], 0)
        if depth == 0:
            return found.end()
    return at


def line_at(text, at):
    return text.count("\n", 0, at) + 1


def imports(text):
    """The names that a text's imports bring, each with what it stands for; a module's ends in a dot."""
    found = {}
    for path, names, alias in USE.findall(text):
        if alias:
            found[alias] = f"{path}."
        found.update((name.strip(), f"{path}.{name.strip()}") for name in names.split(",") if name.strip())
    return found


def bound_in(text):
    """The names that a text in the prover's language binds by a λ, in brackets, by a `let` or a step of a `do`."""
    for group in re.findall(r"λ\s+([^.]*)\.", text):
        yield from re.sub(r"\(.*", "", re.sub(r"\([^()]*\)", "", group)).split()
    for group in re.findall(r"[({]\s*((?:[\w'?-]+\s+)+):\s", text):
        yield from group.split()
    yield from re.findall(r"\blet\s+([\w'?-]+)", text)
    yield from re.findall(r"([\w'?-]+)\s+←", text)


# Definitions, which stand in specs.

def definitions(path):
    """The definitions of a file of specs. Those within a module have its parameters in their text."""
    crate, module = path.split("/")[1], path.split("/specs/")[1][:-5].replace("/", ".")
    scope, found = imports(text_of(path)), [*blocks_of(path)]
    for _, base, _, text in found:
        kind, name, fields = head_of(base, text)
        members = [name, *fields] if kind == "data" else [name]
        scope.update((member, f"Rattle.{crate}.specs.{module}.{name}") for member in members)
        MEMBERS.update(((path, member), (path, name)) for member in members)
    return [defined(path, scope, *block) for block in found]


def blocks_of(path):
    """A file's definitions as they stand there: the line, the base indentation, the module's parameters, the text."""
    base, params, block = "", "", None
    for number, line in enumerate(text_of(path).splitlines(), 1):
        if re.match(r"\S", line):
            base = params = ""
        head = re.match(rf"{base}(?:(?:abbrev|unfoldable|pub(?! mod)|record|data)\b|\S+ :(?: |$))", line)
        other = re.match(r"(use|module|infix\w*)\b", line)
        if (head or other) and block:
            yield block
            block = None
        if line.startswith("module"):
            base, params = "  ", line
        elif head:
            block = (number, base, params, line)
        elif block:
            block = (*block[:3], f"{block[3]}\n{line}")
    if block:
        yield block


def head_of(base, text):
    """What a definition is (a record, data, or neither), its name, and its fields or constructors."""
    words = [it for it in text.split() if it not in ("abbrev", "unfoldable", "pub")]
    kind = words[0] if words[0] in ("record", "data") else ""
    fields = re.findall(rf"^{base} +(?:pub )?([\w'?-]+) :(?:\s|$)", text, re.M) if kind else []
    return kind, words[1] if kind else words[0], fields


def defined(path, scope, line, base, params, text):
    kind, name, fields = head_of(base, text)
    bound = [name, *fields] if kind else [name, *arguments(text, base, scope)]
    return Item(path, name, line, text, f"{params}\n{text}", scope=scope, bound=bound)


def arguments(text, base, scope):
    """What the left sides of a definition's equations bind."""
    for part in re.split(rf"\n(?={base}\S)", text)[1:]:
        for _, word, _ in CHUNK.findall(re.split(r"\s=(?:\s|$)", part)[0]):
            if not scope.get(word, "").endswith(".") and (word[0].islower() or word not in scope):
                yield word


# Declarations and contracts, which stand in src.

def clauses_at(text, at):
    """The clauses of a contract that begins here; one that declares a ghost parameter comes with its name."""
    clause = re.compile(r"\s*(?:(?:requires|ensures)\*?(?:\s+\w+)?|ghost (\w+):)\s*(?={)")
    found = clause.match(text, at)
    while found:
        end = closing(text, found.end())
        yield found[1], text[found.end() + 1:end]
        found = clause.match(text, end + 1)


def function(path, text, found, name, header="", scope=None):
    """A function's contract, whose `fn` was found in the text."""
    params = behind_generics(text, found.end())
    end = closing(text, params)
    back = re.compile(r"\s(?:requires|ensures|ghost)\b|{|;\s*\n").search(text, end)
    at = back.start() if back else len(text)
    clauses = [*clauses_at(text, at)]
    bound = ["self", "result", *re.findall(r"(\w+)\s*:(?!:)", text[params:end]), *(it for it, _ in clauses if it)]
    ghost = "\n;\n".join(it for _, it in clauses)
    return Item(path, name, line_at(text, found.start()), "", ghost, header + text[found.end():at], scope, bound)


def impls(path):
    """The `impl` blocks of a file: the place, the trait or nothing, the type's name, the header and the body."""
    text = text_of(path)
    for found in re.finditer(r"^(?:unsafe )?impl\b", text, re.M):
        begin = behind_generics(text, found.end())
        brace = text.index("{", begin)
        trait, _, owner = text[begin:brace].rpartition(" for ")
        name = re.match(r"\s*([\w:]*)", owner)[1].split("::")[-1]
        yield found.start(), trait.strip(), name, text[found.end():brace], (brace, closing(text, brace))


def ghosts_in(body, names=r"\w+"):
    """What a body gives for its ghost members, and their names."""
    for found in re.finditer(rf"\bghost ({names})(?::| =)\s*{{", body):
        yield found[1], body[found.end():closing(body, found.end() - 1)]
        default = re.compile(r"\s*(?:=|by)\s*(?={)").match(body, closing(body, found.end() - 1) + 1)
        if default:
            yield found[1], body[default.end() + 1:closing(body, default.end())]


def declarations(path):
    """The types, traits and constants of a file, and the models of its types."""
    text, scope = text_of(path), imports(top_of(path))
    models = {name: (at, span) for at, trait, name, _, span in impls(path) if trait == "Model"}
    for found in TYPE.finditer(text):
        end = re.compile(r";\n|{").search(text, behind_generics(text, found.end()))
        end = closing(text, end.start()) if end[0] == "{" else end.start()
        item = declared(path, found[1], found[2], text[found.start():end + 1], line_at(text, found.start()), scope)
        if item.name in models:
            item.view, item.value = (model_of(item, *models[item.name], scope, of) for of in (MODELLED, "Value"))
            yield from (item.view, item.value)
        yield item


def declared(path, kind, name, text, line, scope):
    """A type's or a trait's declaration."""
    ghosts = [*ghosts_in(text)]
    ghost = "\n;\n".join(it for _, it in ghosts)
    types, bound = text, [name, *(it for it, _ in ghosts)]
    if kind == "trait":
        scope = {**scope, **imports(text)}
        calls = [function(path, text, it, name) for it in re.finditer(FUNCTION, text)]
        ghost = "\n;\n".join([ghost, *(it.ghost for it in calls)])
        types = "\n".join([text[:text.index("{")], *(it.types for it in calls)])
        bound += [it for call in calls for it in call.bound]
    else:
        bound += re.findall(r"(\w+)\s*:(?!:)", text)
    return Item(path, name, line, text, ghost, types, scope, bound)


def model_of(item, at, span, scope, members):
    """How a type is viewed: its value, its view and its invariant; or its value alone."""
    text = text_of(item.path)
    body = text[span[0]:span[1] + 1]
    given = dict(ghosts_in(body, members))
    shown = "\n".join(f"{it} {text}" for it, text in given.items())
    kind, at = ("view", at) if members == MODELLED else ("value", span[0] + max(0, body.find("ghost Value")))
    return Item(item.path, f"{kind} of {item.name}", line_at(text, at), shown,
                "\n;\n".join(given.values()), scope={**scope, **imports(body)}, bound=MODELLED.split("|"))


def types_read(item):
    """Of a type's declaration its head, and of the fields that its view reads the heads of their types."""
    head = re.sub(r" = \w+", "", item.types.partition("{")[0])
    fields = re.findall(r"^ +(?:pub(?:\(\w+\))? )?(\w+): (?:&(?:'\w+ )?)?([\w:]+)", item.types, re.M)
    return " ".join([head, *(of for field, of in fields if re.search(rf"\.{field}\b", item.view.ghost))])


def top_of(path):
    """The imports at the top of a file of code."""
    return "\n".join(re.findall(r"^(?:pub )?(?:ghost )?use [^;]*;", text_of(path), re.M))


# What names stand for.

def paths_in(use):
    """The paths of a `use`, with the names that they bring."""
    head, brace, rest = use.partition("{")
    if not brace:
        path, _, alias = use.partition(" as ")
        yield path.strip().split("::"), alias.strip()
        return
    for part in re.split(r",(?![^{]*})", rest.rpartition("}")[0]):
        for parts, alias in paths_in(part) if part.strip() else ():
            yield [*head.strip().split("::")[:-1], *parts], alias


@functools.lru_cache(None)
def types_of(path):
    """The types that a file of code has in scope: those of ours by their keys, and the kit's by their names alone."""
    crate = path.split("/")[1]
    found = {name: (file, name) for file, name in ITEMS if file == path}
    for use in re.findall(r"^(?:pub )?use ([^;]*);", text_of(path), re.M):
        for parts, alias in paths_in(use):
            key = type_at(crate, path, parts)
            if not key and parts[0] not in ("std", "crate", *CRATES) and not is_module(crate, parts[0]):
                key = ("", parts[-1])
            if key:
                found[alias or parts[-1]] = key
    return found


def is_module(crate, name):
    return f"crates/{crate}/src/{name}.rt" in SOURCES


def type_at(crate, path, parts):
    """The type of ours that stands at a path of the code, if one does."""
    root = [] if parts[0] == "crate" or parts[0] in CRATES else [parts[0]]
    crate = parts[0] if parts[0] in CRATES else crate
    module = [*root, *parts[1:-1]] if len(parts) > 1 else []
    file = f"crates/{crate}/src/{'/'.join(module) or 'lib'}.rt"
    if (file, parts[-1]) in ITEMS:
        return file, parts[-1]
    return types_of(file).get(parts[-1]) if file != path and file in SOURCES else None


def types_in(item, types, mode):
    """The types that a text of the code names. Of one with a view a declared type has the value alone."""
    known = types_of(item.path)
    for module, name in re.findall(r"(?:(\w+)::)?\b([A-Z]\w*)", types):
        key = known.get(name) or module and type_at(item.crate, item.path, [module, name])
        of = ITEMS.get(key)
        if of and of.value and mode == "declared":
            yield (of.value.path, of.value.name), ""
        elif key:
            yield key, mode


def standing_at(path):
    """The definition or the type of ours that a path in the prover's language leads to."""
    _, crate, room, *rest = [*path.split("."), "", ""]
    here = f"crates/{crate}/{'src' if rest[0] == 'declared' else room}"
    rest, end = ([it for it in rest[1:] if it != "TheConstants"], "rt") if rest[0] == "declared" else (rest, "antt")
    for i in range(1, len(rest)):
        key = (f"{here}/{'/'.join(rest[:i])}.{end}", rest[i])
        key = MEMBERS.get(key, key)
        if key in ITEMS:
            return key, "declared"
    return None


def is_of_module(name, rest, item):
    """Whether what has the name of a bound one is of the module that an import names so: `reply.Done`."""
    path = item.scope.get(name, "")
    return path.endswith(".") and bool(rest) and standing_at(path + rest[1:]) is not None


def names_in(item):
    """The names in an item's ghost text that it doesn't bind: the name, and what it stands for by its scope."""
    parts = {part: path for name, path in item.scope.items() if "◌" in name for part in name.split("◌") if part}
    if "[]" in item.ghost and "[]" in item.scope:
        yield "[]", item.scope["[]"]
    for dot, name, rest in CHUNK.findall(item.ghost):
        path = item.scope.get(name) or parts.get(name)
        if path and path.endswith("."):
            path += rest[1:]
        if name == "do":
            yield name, item.scope["◌>>=◌"]
        elif name == "Rattle":
            yield name, name + rest
        elif dot or name in WORDS or name[0].isdigit():
            continue
        elif name not in item.bound or is_of_module(name, rest, item):
            yield name, path


def needs(item, mode):
    """What an item names, as a value of the code or as declared in the prover's language: definitions and types of
    ours, names of std and the kit, and what was passed over."""
    ours, others, over = {*types_of_item(item, mode)}, set(), set()
    rust = types_of(item.path) if item.path.endswith(".rt") else {}
    for name, path in names_in(item):
        key = standing_at(path) if path else (rust[name], "declared") if name in rust else None
        if key:
            ours.add(key)
        elif path and (path.split(".")[1] not in CRATES or not path.startswith("Rattle.")):
            others.add(path.split(".")[-1])
        else:
            over.add(name)
    others |= {name for (path, name), _ in ours if not path}
    return {it for it in ours if it[0][0]}, others, over


def types_of_item(item, mode):
    if item.view and mode == "code":
        yield (item.view.path, item.view.name), ""
        yield from types_in(item, types_read(item), mode)
    else:
        yield from types_in(item, item.types, mode)


def reached(contracts):
    """What contracts reach: the items of ours, and the names of std and the kit."""
    new, known, names = [(it, "code") for it in contracts], set(), set()
    while new:
        ours, others, _ = needs(*new.pop())
        names |= others
        new += [(ITEMS[key], mode) for key, mode in ours - known]
        known |= ours
    items = {ITEMS[key] for key, _ in known}
    return items - {it.value for it in items if it.view in items}, names


# The public contracts.

@functools.lru_cache(None)
def exports(crate):
    """A library's open modules, and the names that it exports, each with its module; nothing for a program."""
    path = f"crates/{crate}/src/lib.rt"
    if path not in SOURCES:
        return None
    text = text_of(path)
    uses = [parts for use in re.findall(r"^pub use ([^;]*);", text, re.M) for parts, _ in paths_in(use)]
    return {*re.findall(r"^pub mod (\w+);", text, re.M), "lib"}, {(parts[0], parts[-1]) for parts in uses}


def is_public(path, name):
    """Whether a crate's users see what is public in a file. Of a program all that its modules share counts."""
    shown, module = exports(path.split("/")[1]), path.split("/src/")[1][:-3]
    return not shown or module in shown[0] or (module, name) in shown[1]


def contracts_of(path):
    """The public contracts of a file."""
    text, scope = text_of(path), imports(top_of(path))
    mark = "pub " if exports(path.split("/")[1]) else r"pub(?:\(crate\))? "
    for found in re.finditer(rf"^{mark}(?:{FUNCTION}|trait (\w+))", text, re.M):
        name = found[1] or found[2]
        if is_public(path, name):
            yield function(path, text, found, name, scope=scope) if found[1] else ITEMS[path, name]
    for at, trait, name, header, (begin, end) in impls(path):
        here = {**scope, **imports(text[begin:end])}
        owners = [types_of(path).get(it) for it in (name, re.match(r"\w*", trait)[0])]
        if not all(is_public(*it) for it in owners if it and it[0]):
            continue
        if trait:
            yield from given(path, at, trait, name, header, text[begin:end + 1], here)
        else:
            for found in re.compile(rf"^    {mark}{FUNCTION}", re.M).finditer(text, begin, end):
                yield function(path, text, found, f"{name}::{found[1]}", header, here)


def given(path, at, trait, name, header, body, scope):
    """What an `impl` of a trait promises by its ghost members, and by clauses in place of the trait's; a model comes
    with its type."""
    calls = [function(path, body, it, name) for it in re.finditer(FUNCTION, body)]
    members = [] if trait == "Model" else [*ghosts_in(body)]
    ghosts = "\n;\n".join([*(text for _, text in members), *(it.ghost for it in calls if it.ghost)])
    bound = ["self", "result", *(it for it, _ in members), *(it for call in calls for it in call.bound)]
    if ghosts:
        yield Item(path, f"{trait} for {name}", line_at(text_of(path), at), "", ghosts, header, scope, bound)


def public_contracts():
    """All public contracts, but those of tests. One without clauses promises what the types in its signature keep."""
    return [it for crate in CRATES if not crate.endswith("_tests") for path in SOURCES
            if path.startswith(f"crates/{crate}/") for it in contracts_of(path)]


# Where definitions lie.

def is_definition(item):
    return item.path.endswith(".antt")


def offered():
    """What a page offers to contracts that a user writes, as one contract."""
    with open(os.path.join(TOP, USING), encoding="utf-8") as file:
        words = {*re.findall(r"\w+", " ".join(re.findall(r"`([^`\n]+)`", file.read())))}
    names = {it.name: it.scope[it.name] for it in ITEMS.values()
             if is_definition(it) and it.crate == USED and it.name in words}
    return Item(USING, USING, 1, "", " ".join(names), scope=names)


def misplaced(contracts, items):
    """What is to be moved: what contracts reach of `specs/inner`, and what none reaches outside of it."""
    for item in in_order(it for it in ITEMS.values() if is_definition(it) and not it.crate.endswith("_tests")):
        folder, file = os.path.split(item.path)
        inner = f"crates/{item.crate}/specs/inner"
        if item not in items and folder != inner:
            yield f"{item.place}: no public contract reaches {item.name}: move it to {inner}/{file}"
        elif item in items and folder == inner:
            by = next(it for it in contracts if item in reached([it])[0])
            yield (f"{item.place}: {item.name} is reached by the public contract {by.name} ({by.place}): "
                   f"move it to {os.path.dirname(inner)}/{file}")


# The page.

def in_order(items):
    """Items by crate, as the library builds on itself, and by file and line."""
    return sorted(items, key=lambda it: (CRATES.index(it.crate), it.path.endswith(".rt"), it.path, it.line))


def rows(items):
    """A row for each file."""
    paths = dict.fromkeys(it.path for it in in_order(items))
    for path in paths:
        here = [it for it in in_order(items) if it.path == path]
        names = ", ".join(re.sub(r"(\S+)$", r"`\1`", it.name) + f" {it.line}" for it in here)
        link = f"[{os.path.basename(path)}](../{path}) ({here[0].crate})"
        yield f"| {link} | {names} | {sum(it.lines for it in here)} |"


def sum_of(items):
    return f"{len(items)} definitions, {sum(it.lines for it in items)} lines"


def notation(names):
    """Names of std and the kit, as they are written."""
    shown = sorted({" ".join(it.replace("◌", " ").split()) for it in names})
    return ", ".join(f"`{it}`" for it in shown)


def section(title, contracts, items, names):
    places = ", ".join(f"`{it.name}` ({it.place})" for it in contracts)
    return [f"## {title}", "", f"Contracts: {places}.", "", "| File | Definitions, each with its line | Lines |",
            "|---|---|---|", *rows(items), "",
            f"Sum: {sum_of(items)}.", "", f"Of std and the kit: {notation(names)}.", ""]


def by_crate(items):
    """The table of what public contracts reach."""
    yield from ["## Reached and not reached", "",
                "The definitions, and how many of them any public contract reaches, laws among them, or "
                "[USING](USING.md) offers to a user's. The others are for private contracts and proofs alone, and lie "
                "apart, in `specs/inner`. In a program all that its modules share is public. Tests don't count.", "",
                "| Crate | Definitions | Reached | Not reached |", "|---|---|---|---|"]
    total = []
    for crate in CRATES:
        all_here = [it for it in ITEMS.values() if it.crate == crate and is_definition(it)]
        there = [it for it in all_here if it in items]
        if all_here:
            total.append((len(all_here), len(there)))
            yield f"| {crate} | {len(all_here)} | {len(there)} | {len(all_here) - len(there)} |"
    count, there = map(sum, zip(*total))
    yield f"| all | {count} | {there} | {count - there} |"


def written(public, items_of_all):
    """The generated part of the page."""
    found = {(it.crate, it.name): it for it in public}
    parts, table, everything = [], [], set()
    for title, names in PROMISES:
        if not found.keys() >= {*names}:
            sys.exit(f"{title}: no such contract: {', '.join('::'.join(it) for it in names if it not in found)}")
        contracts = [found[name] for name in names]
        items, others = reached(contracts)
        everything |= items
        table.append(f"| {title} | {len(items)} | {sum(it.lines for it in items)} |")
        parts += section(title, contracts, items, others)
    table.append(f"| all six, each definition once | {len(everything)} | {sum(it.lines for it in everything)} |")
    head = ["| Promise | Definitions | Lines |", "|---|---|---|", *table, ""]
    return "\n".join([BEGIN, "", *head, *parts, *by_crate(items_of_all), "", END])


def print_unresolved(public):
    """What was passed over, that of a name of ours first; and what is taken to be bound, though a definition in scope
    has its name."""
    known, over, bound = {name for _, name in ITEMS}, {}, []
    for item in in_order({*reached(public)[0], *public}):
        for name in needs(item, "code")[2]:
            over.setdefault(name, []).append(item.place)
        bound += [f"{item.place} {item.name}: {it}" for it in sorted(item.bound - {item.name})
                  if it in item.scope and standing_at(item.scope[it])]
    for name in sorted(over, key=lambda it: (it not in known, it)):
        print(f"{'a name of ours: ' if name in known else ''}{name}: {', '.join(over[name][:3])}")
    print("\n".join(["bound, and in scope:", *bound]))


def main():
    public = public_contracts()
    if sys.argv[1:] == ["--unresolved"]:
        return print_unresolved(public)
    contracts = [*public, offered()]
    items = reached(contracts)[0]
    moves = [*misplaced(contracts, items)]
    if moves:
        sys.exit("\n".join(moves))
    file = os.path.join(TOP, PAGE)
    with open(file, encoding="utf-8") as opened:
        page = opened.read()
    before, begin, rest = page.partition(BEGIN)
    _, end, after = rest.partition(END)
    if not (begin and end):
        sys.exit(f"{PAGE} has no line {BEGIN} with a line {END} below it")
    new = before + written(public, items) + after
    if sys.argv[1:] == ["--write"]:
        with open(file, "w", encoding="utf-8") as opened:
            opened.write(new)
    elif new != page:
        sys.exit(f"{PAGE} is not what the code has: write it anew by tests/pages/believe.py --write")
    print(f"{PAGE}: {len(PROMISES)} promises, as in the code; what no public contract reaches lies in specs/inner")


with open(os.path.join(TOP, "crates.txt"), encoding="utf-8") as listed:
    CRATES = re.findall(r"^(\w+)[^:#\n]*:", listed.read(), re.M)
SOURCES = files("*/src/**/*.rt")
ITEMS, MEMBERS = {}, {}
for source in SOURCES:
    ITEMS.update(((it.path, it.name), it) for it in declarations(source))
for source in files("*/specs/**/*.antt"):
    for made in definitions(source):
        ITEMS[made.path, made.name] = made
sys.exit(main())
