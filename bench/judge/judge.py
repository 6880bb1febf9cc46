"""Judges a history as `stamped check` does: judge.py < HISTORY.

One walk, by the calls of the lock on its word; of histories in format 1. The status is 0 for one
that is linearized by its points, and 1 for another."""
import json
import sys

from call_table import TABLE, VERSION


def record_reply(content, call):
    """What the record replies, and its content afterwards."""
    name = call[0]
    if name == "get":
        return content, content
    if name == "put":
        return "done", call[1]
    return ("yes", call[2]) if content == call[1] else ("no", content)


def fault(history):
    """The first entry that breaks something, and what; or None."""
    limits = (history["readers"], history["versions"])
    word, content, point, lasts = VERSION, [0] * history["width"], -1, [-1] * 64
    for index, entry in enumerate(history["entries"]):
        first, last, thread, call = entry["first"], entry["last"], entry["thread"], entry["call"]
        if not first <= entry["point"] <= last:
            return index, "interval"
        if entry["point"] <= point:
            return index, "order"
        if first <= lasts[thread]:
            return index, "overlap"
        row = TABLE.get(call[0])
        if row is None:
            reply, content = record_reply(content, call)
        else:
            decision = row(limits, word, call[1] if len(call) == 2 else 0)
            if decision is None:
                return index, "reply"
            word, reply = word if decision[0] is None else decision[0], decision[1]
        if reply != entry["reply"]:
            return index, "reply"
        point = entry["point"]
        lasts[thread] = last
    return None


def main():
    history = json.load(sys.stdin)
    found = fault(history)
    if found is None:
        print("ok", len(history["entries"]))
    else:
        print("bad", *found)
        sys.exit(1)


main()
