"""Gives the programs broken replays, scripts and histories of both layouts, and compares what is told.

    broken_inputs.py SHIM STAMPED EXPLAIN

Each field's faults alone and in pairs (the earlier one of the list of FORMATS is told, whichever
stands first in the text), numbers at their edges, keys that stand twice, texts that are no JSON, each
text cut off at each place. No run leaves a block."""
import copy
import json
import os
import re
import sys
from dataclasses import dataclass
from typing import Callable

from counted_runs import CountedRuns

MOST_READERS = {1: 127, 2: 65_535}
MOST_VERSIONS = {1: 2**55 - 2, 2: 2**46 - 2}
NOT_JSON = "not json"
# The order of the program that explains, which has no word.
EXPLAIN = None
# The fields of a history, in the order in which they are looked at.
ORDER = ["top", "format", "layout", "readers", "versions", "width", "entries", "entry 0", "entry 1", "entry 4"]
NO_WHOLE_NUMBER = ["-0", "-1", "0.0", "1.0", "1e0", "18446744073709551616", '"1"', "null", "true", "[]"]
MOST_WHOLE = "18446744073709551615"


class Raw(str):
    """A JSON text that stands for itself."""


def text_of(value):
    if isinstance(value, Raw):
        return str(value)
    if isinstance(value, dict):
        return "{" + ",".join(f"{json.dumps(key)}:{text_of(of)}" for key, of in value.items()) + "}"
    if isinstance(value, list):
        return "[" + ",".join(map(text_of, value)) + "]"
    return json.dumps(value)


@dataclass
class Fault:
    """A change of a text, the parts of the text that it touches, and the line that is told of it.

    One that comes last is made after others, since it leaves a part as its text alone."""

    line: str
    touches: set
    change: Callable
    comes_last: bool = False


@dataclass
class Reading:
    """A text that is accepted, its faults in the order of the table, and where numbers stand in it.

    A number is where it stands, the line told of what is no whole number there, and that of 2^64-1
    (None: it is accepted)."""

    orders: list
    text: dict
    faults: list
    numbers: list


def put(*path):
    """A change that puts the last of the path at the place that the others name."""
    *place, value = path

    def change(text):
        for key in place[:-1]:
            text = text[key]
        text[place[-1]] = copy.deepcopy(value)

    return change


def too_much(line, touches, key, item, times):
    """A fault of a list that has so many more of an item."""

    def change(text):
        text[key] = Raw(text_of(text[key])[:-1] + f",{item}" * times + "]")

    return Fault(line, touches, change, comes_last=True)


def limits_faults(layout, kind):
    """What can be wrong with a text's limits."""
    return [
        Fault(f"{kind}: readers", {"readers"}, put("readers", "1")),
        Fault("over a limit: readers", {"readers"}, put("readers", 0)),
        Fault("over a limit: readers", {"readers"}, put("readers", MOST_READERS[layout] + 1)),
        Fault(f"{kind}: versions", {"versions"}, put("versions", Raw("1.0"))),
        Fault("over a limit: versions", {"versions"}, put("versions", MOST_VERSIONS[layout] + 1)),
    ]


def limits_numbers(layout, kind):
    laid = [(["layout"], f"{kind}: layout", f"{kind}: layout")] if layout == 2 else []
    return laid + [
        (["readers"], f"{kind}: readers", "over a limit: readers"),
        (["versions"], f"{kind}: versions", "over a limit: versions"),
    ]


def in_layout(layout, text):
    return {**text, "layout": 2} if layout == 2 else text


def replay(layout):
    text = {"calls": [["try_read"], ["unlock", 257]], "readers": 3, "versions": 5}
    kind = "not a script"
    all_calls = {"calls", "call 0", "call 1"}
    faults = [
        Fault(f"{kind}: top", {"top"}, put("further", 0)),
        Fault(f"{kind}: layout", {"layout"}, put("layout", 3)),
        *limits_faults(layout, kind),
        Fault(f"{kind}: calls", all_calls, put("calls", {})),
        too_much("over a limit: calls", {"calls"}, "calls", "0", 640_001),
        Fault(f"{kind}: call 0", {"call 0"}, put("calls", 0, ["get"])),
        Fault(f"{kind}: call 1", {"call 1"}, put("calls", 1, ["unlock", [0, 0]])),
    ]
    numbers = limits_numbers(layout, kind) + [(["calls", 1, 1], f"{kind}: call 1", None)]
    return Reading(["replay"], in_layout(layout, text), faults, numbers)


def script(layout):
    threads = [[["unlock", 257], ["to_read", [1, 0]]], [["try_read"], ["put", [1, 2]]]]
    text = {"readers": 3, "steps": [0, 1], "threads": threads, "versions": 5, "width": 2}
    kind, refused = "not a script", "script refused"
    all_threads = {"threads", "call 0 1", "call 1 0", "call 1 1"}
    all_steps = {"steps", "step 0", "step 1"}
    many_calls = "[" + ",".join(['["get"]'] * 10_001) + "]"
    faults = [
        Fault(f"{kind}: top", {"top"}, put("further", 0)),
        Fault(f"{kind}: layout", {"layout"}, put("layout", 0)),
        *limits_faults(layout, kind),
        Fault(f"{kind}: width", {"width"}, put("width", -1)),
        Fault(f"{kind}: threads", all_threads, put("threads", [[], 0])),
        Fault(f"{kind}: call 0 1", {"call 0 1"}, put("threads", 0, 1, ["to_read", [1]])),
        Fault(f"{kind}: call 1 0", {"call 1 0"}, put("threads", 1, 0, ["lock"])),
        Fault(f"{kind}: steps", all_steps, put("steps", {})),
        Fault(f"{kind}: step 0", {"step 0"}, put("steps", 0, "0")),
        Fault(f"{kind}: step 1", {"step 1"}, put("steps", 1, [1])),
        too_much(f"{refused}: too many threads", {"threads", "many"}, "threads", "[]", 63),
        too_much(f"{refused}: too many calls", {"threads", "many"}, "threads", many_calls, 1),
        too_much(f"{refused}: too many steps", {"steps"}, "steps", "0", 999_999),
        Fault(f"{refused}: no thread at step 1", {"step 1"}, put("steps", 1, 99)),
        Fault(f"{refused}: record width", {"width"}, put("width", 17)),
        Fault(f"{refused}: record width", {"call 1 1"}, put("threads", 1, 1, ["put", [1]])),
    ]
    numbers = limits_numbers(layout, kind) + [
        (["width"], f"{kind}: width", f"{refused}: record width"),
        (["threads", 0, 0, 1], f"{kind}: call 0 0", None),
        (["threads", 0, 1, 1, 0], f"{kind}: call 0 1", None),
        (["threads", 0, 1, 1, 1], f"{kind}: call 0 1", None),
        (["threads", 1, 1, 1, 1], f"{kind}: call 1 1", None),
        (["steps", 1], f"{kind}: step 1", f"{refused}: no thread at step 1"),
    ]
    return Reading(["run"], in_layout(layout, text), faults, numbers)


def entry(call, reply, at):
    return {"call": call, "first": at, "last": at, "point": at, "reply": reply, "thread": at}


def history(layout):
    entries = [entry(["unlock", 3], "mismatch", 0), entry(["put", [1, 2]], "done", 1)]
    entries += [entry(["get"], [1, 2], 2), entry(["read_count"], {"count": 0}, 3)]
    entries += [entry(["optimistic"], {1: 256, 2: 131_072}[layout], 4)]
    text = {"entries": entries, "format": layout, "readers": 3, "report": [[1, 0]] * 5}
    text.update({"versions": 5, "width": 2})
    kind = "not a history"
    laid = {"format", "layout"} if layout == 1 else {"layout"}
    another = (lambda text: text.update(format=2, layout=3)) if layout == 1 else put("layout", 3)
    all_entries = {"entries", "entry 0", "entry 1", "thread"}
    faults = [
        Fault(f"{kind}: top", {"top"}, put("further", 0)),
        Fault(f"{kind}: format", {"format"}, put("format", 3 - layout)),
        Fault(f"{kind}: layout", laid, another),
        *limits_faults(layout, kind),
        Fault(f"{kind}: width", {"width"}, put("width", Raw("2.0"))),
        Fault("over a limit: width", {"width"}, put("width", 17)),
        Fault(f"{kind}: entries", all_entries, put("entries", {})),
        too_much("over a limit: entries", {"entries"}, "entries", "0", 640_001),
        Fault(f"{kind}: entry 0", {"entry 0"}, put("entries", 0, "further", 0)),
        Fault("over a limit: entry 0", {"thread"}, put("entries", 0, "thread", 64)),
        Fault(f"{kind}: entry 1", {"entry 1"}, put("entries", 1, "call", ["put", [1]])),
        Fault(f"{kind}: report", {"report"}, put("report", [[1, 0]])),
    ]
    at = ["entries", 0]
    numbers = limits_numbers(layout, kind) + [
        (["format"], f"{kind}: format", f"{kind}: format"),
        (["width"], f"{kind}: width", "over a limit: width"),
        ([*at, "thread"], f"{kind}: entry 0", "over a limit: entry 0"),
        *(([*at, key], f"{kind}: entry 0", None) for key in ["first", "point", "last"]),
        ([*at, "call", 1], f"{kind}: entry 0", None),
        (["entries", 1, "call", 1, 1], f"{kind}: entry 1", None),
        (["entries", 2, "reply", 0], f"{kind}: entry 2", None),
        (["entries", 3, "reply", "count"], f"{kind}: entry 3", None),
        (["report", 1, 0], f"{kind}: report", None),
    ]
    return Reading(["check", "migrate"], in_layout(layout, text), faults, numbers)


def observed(layout):
    """A history without points and report, of which the last call is under way."""
    text = history(layout).text
    entries = [{key: of for key, of in made.items() if key != "point"} for made in text["entries"]]
    del text["report"], entries[4]["last"], entries[4]["reply"]
    text["entries"] = entries
    reading = history(layout)
    faults = [fault for fault in reading.faults if fault.touches != {"report"}]
    kind = "not a history"
    end = 2**58
    faults += [
        Fault(f"{kind}: top", {"top"}, put("report", [])),
        Fault(f"{kind}: entry 4", {"entry 4", "entries"}, put("entries", 4, "last", 9)),
        Fault("over a limit: entry 4", {"entry 4", "entries"}, put("entries", 4, "first", end)),
    ]
    faults.sort(key=lambda fault: [*ORDER, fault.line.split(": ")[1]].index(fault.line.split(": ")[1]))
    numbers = [number for number in reading.numbers if "point" not in number[0] and "report" not in number[0]]
    numbers = [(at, fault, "over a limit: entry 0" if at[-1] in ("first", "last") else most)
               for at, fault, most in numbers]
    return Reading([EXPLAIN], text, faults, numbers)


class Program:
    """The programs, and their runs."""

    def __init__(self, shim, path, explain):
        self.path, self.explain = os.path.abspath(path), os.path.abspath(explain)
        self.runs = CountedRuns(shim)

    def assert_told(self, orders, text, line):
        """The line is told of the text; of none, that it is accepted, where a stuck history has a line of its own."""
        data = text if isinstance(text, bytes) else text.encode()
        for order in orders:
            words = [self.explain] if order is EXPLAIN else [self.path, order]
            answer, _ = self.runs.ended(words, data)
            _, out, err = answer
            if line is None:
                stuck = re.fullmatch(rb"stuck (\d+)\n", out)
                told = rb"stamped_explain: entry %s of .*\n" % stuck[1] if stuck else b""
                right = out != b"" and re.fullmatch(told, err)
            else:
                told = "no input" if order is EXPLAIN and not data else line
                right = answer == (1, b"", f"{os.path.basename(words[0])}: {told}\n".encode())
            if not right:
                sys.exit(f"{order} of {data[:400]}: {answer}"[:2000] + f", and not {line}")


def broken_by(text, *faults):
    text = copy.deepcopy(text)
    for fault in sorted(faults, key=lambda fault: fault.comes_last):
        fault.change(text)
    return text


def backwards(value):
    """The same, with the keys of each object in the opposite order."""
    if isinstance(value, dict):
        return {key: backwards(of) for key, of in reversed(value.items())}
    if isinstance(value, list):
        return [backwards(of) for of in value]
    return value


def with_number(text, place, number):
    text = copy.deepcopy(text)
    put(*place, Raw(number))(text)
    return text_of(text)


def give_faults(program, reading):
    """Each fault alone, and each two that touch other parts, in both orders: the first is told."""
    program.assert_told(reading.orders, text_of(reading.text), None)
    for i, first in enumerate(reading.faults):
        broken = text_of(broken_by(reading.text, first))
        program.assert_told(reading.orders, broken, first.line)
        program.assert_told(reading.orders, broken[:-1], NOT_JSON)
        for second in reading.faults[i + 1 :]:
            if not first.touches & second.touches:
                both = broken_by(reading.text, first, second)
                program.assert_told(reading.orders, text_of(both), first.line)
                program.assert_told(reading.orders, text_of(backwards(both)), first.line)


def give_numbers(program, reading):
    for place, kind, most in reading.numbers:
        for number in NO_WHOLE_NUMBER:
            broken = with_number(reading.text, place, number)
            program.assert_told(reading.orders, broken, kind)
        program.assert_told(reading.orders, with_number(reading.text, place, "1e400"), NOT_JSON)
        program.assert_told(reading.orders, with_number(reading.text, place, MOST_WHOLE), most)


def give_keys(program, reading):
    """Of a key that stands twice the last one counts, however it is spelled."""
    inner = text_of(reading.text)[1:-1]
    for key in ['"readers"', '"reader\\u0073"', '"\\u0072eaders"']:
        program.assert_told(reading.orders, f"{{{key}:0,{inner}}}", None)
        program.assert_told(reading.orders, f"{{{inner},{key}:0}}", "over a limit: readers")
    for key in reading.text:
        if key not in ("layout", "report"):
            kind = "not a history" if "entries" in reading.text else "not a script"
            missing = {of: reading.text[of] for of in reading.text if of != key}
            program.assert_told(reading.orders, text_of(missing), f"{kind}: top")


def give_no_json(program, reading):
    text = text_of(reading.text)
    for end in range(len(text)):
        program.assert_told(reading.orders, text[:end], NOT_JSON)
    for front, back in [("", "x"), ("", "{}"), ("", "\0"), ("\ufeff", ""), ("\f", ""), (",", "")]:
        program.assert_told(reading.orders, front + text + back, NOT_JSON)
    program.assert_told(reading.orders, f" \t\r\n{text} \t\r\n", None)
    data = text.encode()
    for bad in [b"\xff", b"\xc0\xae", b"\xed\xa0\x80", b"\xe2\x82", b"\xf4\x90\x80\x80", b"\x01"]:
        program.assert_told(reading.orders, data.replace(b'readers"', bad + b'readers"'), NOT_JSON)
    for escape in ["\\ud800", "\\udc00\\ud800", "\\x", "\\u12"]:
        program.assert_told(reading.orders, text.replace('readers"', escape + 'readers"'), NOT_JSON)
    kind = "not a history" if "entries" in reading.text else "not a script"
    program.assert_told(reading.orders, "[" * 127 + "]" * 127, f"{kind}: top")
    program.assert_told(reading.orders, "[" * 128 + "]" * 128, NOT_JSON)


def main():
    program = Program(*sys.argv[1:])
    for reading_of in [replay, script, history, observed]:
        for layout in [1, 2]:
            reading = reading_of(layout)
            for give in [give_faults, give_numbers, give_keys, give_no_json]:
                give(program, reading)
    print("broken inputs told as they are")
    program.runs.tell()


main()
