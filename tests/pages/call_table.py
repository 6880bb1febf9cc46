"""Holds the tables of docs/USING.md to the code: every variant of `Call` and `Reply` has one row.

    call_table.py

A row names its variant with its fields, the replies that the contracts allow, the handle's methods
that make the call, with the arguments of each, as `unlock_read(rt, stamp)`, and Java's name as these
methods' docs have it."""
import os
import re
import sys

TOP = os.path.join(os.path.dirname(os.path.abspath(__file__)), "..", "..")
REPLIES = {
    "IsStampReply": {"Stamp"},
    "IsSomeStamp": {"Stamp"},
    "IsTest": {"Yes", "No"},
    "IsRelease": {"Done", "Mismatch"},
    "IsCount": {"Count"},
}
# The call that a method makes, by its contract or its body.
MADE = re.compile(r"(?:Call::|\bMade \(?)(\w+)")
OF_RECORD = {"Get": {"Content"}, "Put": {"Done"}, "PutIf": {"Yes", "No"}}


def text_of(path):
    with open(os.path.join(TOP, path), encoding="utf-8") as file:
        return file.read()


def variants_of(name):
    """The variants of an enum of stamp_core, each with its number of fields."""
    text = text_of(f"crates/stamp_core/src/{name.lower()}.rt")
    body = re.search(rf"pub enum {name} {{\n(.*?)\n}}", text, re.S)[1]
    found = re.findall(r"^    (\w+)(?:\((.*)\))?,$", re.sub(r"//.*", "", body), re.M)
    return {variant: len(fields.split(",")) if fields else 0 for variant, fields in found}


def rows_of(heading):
    """The rows of the first table below a heading, as lists of cells."""
    text = text_of("docs/USING.md").split(f"\n{heading}\n", 1)[1]
    table = re.search(r"(?:^\|.*\n)+", text, re.M)[0]
    return [[cell.strip() for cell in row.strip("|").split("|")] for row in table.splitlines()[2:]]


def named_in(cell):
    return re.findall(r"`([\w:]+)[^`]*`", cell)


def forms_in(cell):
    """The methods that a cell names, each with its arguments."""
    return dict(re.findall(r"`(\w+)\(([\w, ]*)\)`", cell))


def methods(*files):
    """The doc, the arguments and the body of each public method in these files of stamped_lock."""
    text = "".join(text_of(f"crates/stamped_lock/src/{file}.rt") for file in files)
    parts = re.findall(r"((?:    ///[^\n]*\n)+)(?:    #[^\n]*\n)*"
                       r"    pub fn (\w+)(?:<[^>]*>)?\(([^)]*)\)(.*?)\n    }\n", text, re.S)
    return {name: (doc, ", ".join(re.findall(r"(\w+):", given)), body) for doc, name, given, body in parts}


def replies_by_contract():
    """The replies that each call may get, by `MayReply`; a call that it doesn't name gets a stamp."""
    text = text_of("crates/stamp_threads/specs/MayReply.antt")
    kinds = dict(re.findall(r"^MayReply \(?(\w+).* = (\w+)$", text, re.M))
    return lambda call: OF_RECORD.get(call) or REPLIES[kinds.get(call, "IsStampReply")]


def faults_of_rows(name, rows):
    """What is wrong with the variants that the rows name."""
    variants = variants_of(name)
    named = [re.fullmatch(r"`(\w+)(?:\((.*)\))?`", row[0]) for row in rows]
    if not variants or None in named:
        yield f"a row of {name} names no variant, or {name} was not found"
        return
    told = [row[1] for row in named]
    yield from (f"{name}::{it} has no row" for it in variants if it not in told)
    yield from (f"{name}::{it} has {told.count(it)} rows" for it in variants if told.count(it) > 1)
    for row in named:
        fields = len(row[2].split(",")) if row[2] else 0
        if variants.get(row[1]) != fields:
            yield f"the row {row[0]} is no variant of {name}"


def faults_of_calls(rows):
    """What is wrong with the other cells of the table of calls."""
    known, of_record = methods("handle", "handle_once"), methods("record_handle")
    replies_to, told = replies_by_contract(), []
    for call, _, replies, makers, java in rows:
        variant = named_in(call)[0]
        if set(named_in(replies)) != replies_to(variant):
            yield f"{variant}: the replies are not those of its contract"
        for maker, given in forms_in(makers).items():
            _, wanted, _ = (of_record if variant in OF_RECORD else known).get(maker, ("", None, ""))
            if given != wanted:
                yield f"{variant}: the row has {maker}({given}), and the code {maker}({wanted})"
        names = [name for name in named_in(makers) if name != "RecordHandle"]
        if names != [*forms_in(makers)]:
            yield f"{variant}: a method stands without its arguments"
        names = [] if variant in OF_RECORD else names
        told += names
        for maker in names:
            doc, _, body = known.get(maker, ("", "", ""))
            if variant not in MADE.findall(body):
                yield f"{variant}: no method {maker} makes this call"
            if not maker.endswith("_once") and f"(`{named_in(java)[0]}`)" not in doc:
                yield f"{variant}: the doc of {maker} has another name of Java's"
        if variant not in OF_RECORD and not names:
            yield f"{variant}: no method is named"
    makers = [name for name, (_, _, body) in known.items() if MADE.search(body)]
    yield from (f"the method {name} has no place in the table" for name in makers if name not in told)


calls, replies = rows_of("## Calls and replies"), rows_of("### Replies")
faults = [*faults_of_rows("Call", calls), *faults_of_rows("Reply", replies)]
faults += [] if faults else faults_of_calls(calls)
if faults:
    sys.exit("\n".join(f"docs/USING.md: {it}" for it in faults))
print(f"docs/USING.md: {len(calls)} calls and {len(replies)} replies, as in the code")
