"""Prints what is known of an observed history when entry E has returned, with another reply of E.

    until.py E [REPLY] < run.json

REPLY is JSON: 384, '"no"', '[1, 2]', '{"count":0}'. Without it, E is under way. What returned after E is under
way too, and what began after E returned is left out. Of two returns at one position the one listed first is
first. So an entry's number may change."""
import json
import sys


def until(entries, awaited, replies):
    """The entries as they are known when this one has returned, with a reply of these, if there is one."""
    end = entries[awaited]["last"]
    for number, entry in enumerate(entries):
        if entry["first"] > end:
            continue
        has_returned = "last" in entry and (entry["last"], number) < (end, awaited)
        if number == awaited and replies:
            yield {**entry, "reply": replies[0]}
        elif has_returned:
            yield entry
        else:
            yield {key: entry[key] for key in ("call", "first", "thread")}


def main():
    if len(sys.argv) not in (2, 3):
        sys.exit(__doc__)
    try:
        history, awaited, replies = json.load(sys.stdin), int(sys.argv[1]), [json.loads(it) for it in sys.argv[2:]]
        entry = history["entries"][awaited]
    except (ValueError, LookupError, TypeError) as fault:
        sys.exit(f"until.py: no history, no such entry, or no JSON as a reply: {fault}")
    if "last" not in entry:
        sys.exit(f"until.py: entry {awaited} has not returned")
    entries = [*until(history["entries"], awaited, replies)]
    print(json.dumps({**history, "entries": entries}, separators=(",", ":")))


if __name__ == "__main__":
    main()
