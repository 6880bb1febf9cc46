"""Runs a script as `stamped run` does: run_script.py [--report] < SCRIPT.

A plain interpreter: each call is a generator that yields its accesses and is sent what they find."""
import json
import sys

from call_table import (
    TABLE, VERSION, WRITER, has_writer, read_lock, to_write, unlock_read, version, write_lock)

WIDEST = (127, 2**55 - 2)
LOAD, CAS, STORE = range(3)


def lock_phase(at, limits, row, stamp=0):
    found = yield LOAD, at, 0, 0
    while True:
        decision = row(limits, found, stamp)
        if decision is None:
            found = yield LOAD, at, 0, 0
            continue
        new, reply = decision
        if new is None:
            return reply
        old = found
        found = yield CAS, at, old, new
        if found == old:
            return reply


def loads(width):
    words = []
    for i in range(width):
        words.append((yield LOAD, 2 + i, 0, 0))
    return words


def stores(words, stamp):
    for i, word in enumerate(words):
        yield STORE, 2 + i, 0, word
    yield CAS, 1, stamp, stamp + WRITER


def get(width):
    first = yield LOAD, 1, 0, 0
    if not has_writer(first):
        words = yield from loads(width)
        now = yield LOAD, 1, 0, 0
        if not has_writer(now) and version(now) == version(first):
            return words
    stamp = yield from lock_phase(1, WIDEST, read_lock)
    words = yield from loads(width)
    yield from lock_phase(1, WIDEST, unlock_read, stamp)
    return words


def put(words):
    stamp = yield from lock_phase(1, WIDEST, write_lock)
    yield from stores(words, stamp)
    return "done"


def put_if(width, expected, words):
    stamp = yield from lock_phase(1, WIDEST, read_lock)
    if (yield from loads(width)) != expected:
        yield from lock_phase(1, WIDEST, unlock_read, stamp)
        return "no"
    claimed = yield from lock_phase(1, WIDEST, to_write, stamp)
    if claimed == 0:
        yield from lock_phase(1, WIDEST, unlock_read, stamp)
        claimed = yield from lock_phase(1, WIDEST, write_lock)
        if (yield from loads(width)) != expected:
            yield CAS, 1, claimed, claimed + WRITER
            return "no"
    yield from stores(words, claimed)
    return "yes"


def machine(limits, width, call):
    name = call[0]
    if name == "get":
        return get(width)
    if name == "put":
        return put(call[1])
    if name == "put_if":
        return put_if(width, call[1], call[2])
    return lock_phase(0, limits, TABLE[name], *call[1:])


def resolved(call, stamps):
    """The call with the number of its stamp."""
    if len(call) != 2 or call[0] == "put" or not isinstance(call[1], list):
        return call
    thread, index = call[1]
    return [call[0], stamps[thread][index] if thread < len(stamps) and index < len(stamps[thread]) else 0]


def accessed(words, kind, at, old, new):
    found = words[at]
    if kind == STORE or (kind == CAS and found == old):
        words[at] = new
    return found


def run(script):
    limits, width, threads = (script["readers"], script["versions"]), script["width"], script["threads"]
    words = [VERSION, VERSION] + [0] * width
    stamps = [[] for _ in threads]
    begun = [None] * len(threads)  # the call, its machine and access, its first step, its own steps, and changes before
    entries, report, changes = [], [], 0
    for position, thread in enumerate(script["steps"]):
        current = begun[thread]
        if current is None:
            if len(stamps[thread]) == len(threads[thread]):
                continue
            call = resolved(threads[thread][len(stamps[thread])], stamps)
            going = machine(limits, width, call)
            current = begun[thread] = [call, going, next(going), position, 0, changes]
        call, going, access, first, own, before = current
        word = words[0]
        found = accessed(words, *access)
        if words[0] != word:
            changes += 1
            before += 1
        try:
            current[2] = going.send(found)
            current[4], current[5] = own + 1, before
        except StopIteration as end:
            reply = end.value
            stamps[thread].append(reply if isinstance(reply, int) else 0)
            entries.append({"call": call, "first": first, "last": position, "point": position, "reply": reply, "thread": thread})
            report.append([own + 1, changes - before])
            begun[thread] = None
    return entries, report


def main():
    script = json.load(sys.stdin)
    entries, report = run(script)
    history = {"entries": entries, "format": 1, "readers": script["readers"]}
    if "--report" in sys.argv[1:] and report:
        history["report"] = report
    history |= {"versions": script["versions"], "width": script["width"]}
    sys.stdout.write(json.dumps(history, separators=(",", ":")) + "\n")


main()
