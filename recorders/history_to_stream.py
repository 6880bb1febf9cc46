"""Writes an observed history as a stream of its events, as stream_to_history.py describes it.

    history_to_stream.py < run.json > run.events

The events stand in the order of the positions. Of those at one position, calls begin before others return, and else
they stand in the order of the list: so one call returns before another begins exactly if it does in the history. A
thread is the lane of its calls, and a call under way has no further event. A history with a record makes a stream of
form 2, one without a stream of form 1.

The status is 1 where this is no such history, and standard error has a line, as `entry 17: it overlaps a call of its
thread`."""
import json
import struct
import sys

CALLS = ("try_write", "try_read", "write_lock", "read_lock", "optimistic", "validate", "unlock_write", "unlock_read",
         "unlock", "to_write", "to_read", "to_optimistic", "try_unlock_write", "try_unlock_read", "is_write_locked",
         "is_read_locked", "read_count")
WITH_STAMP = CALLS[5:12]
# The calls of a record: with no content, one and two.
RECORD_CALLS = ("get", "put", "put_if")
GET, STAMP, COUNT, CONTENT = 17, 32, 37, 38
REPLIES = {"yes": 33, "no": 34, "done": 35, "mismatch": 36}
HEADER, WIDTH, EVENT = struct.Struct("<4sBBHQ"), struct.Struct("<B7x"), struct.Struct("<BBxxxxxxQ")
MOST_POSITIONS, MOST_WIDTH = 2**58, 16


def header_of(history):
    layout = history.get("layout", 1)
    keys = {"entries", "format", "readers", "versions", "width"} | ({"layout"} if "layout" in history else set())
    if set(history) != keys or history["format"] != (2 if "layout" in history else 1) or layout not in (1, 2):
        raise ValueError("not an observed history")
    for field, most in (("readers", 2**16), ("versions", 2**64), ("width", MOST_WIDTH + 1)):
        if not is_below(history[field], most):
            raise ValueError(f"{field} {history[field]} are no number below {most}")
    width = history["width"]
    header = HEADER.pack(b"stmp", 2 if width else 1, layout, history["readers"], history["versions"])
    return header + (WIDTH.pack(width) if width else b"")


def is_below(number, most):
    return type(number) is int and 0 <= number < most


def is_content(words, width):
    """Whether these are words of a record. There are none where the width is 0."""
    return width > 0 and isinstance(words, list) and len(words) == width and all(is_below(it, 2**64) for it in words)


def begin_of(call, width):
    """The kind, the number and the words of the event at which the call begins."""
    name, *given = call if isinstance(call, list) and call else [None]
    if name in CALLS and len(given) == (name in WITH_STAMP) and all(is_below(it, 2**64) for it in given):
        return CALLS.index(name), given[0] if given else 0, []
    contents = RECORD_CALLS.index(name) if name in RECORD_CALLS and width else -1
    if len(given) == contents and all(is_content(it, width) for it in given):
        return GET + contents, 0, sum(given, [])
    raise ValueError(f"no call of {owners(width)}: {json.dumps(call)}")


def return_of(reply, width):
    if is_below(reply, 2**64):
        return STAMP, reply, []
    if isinstance(reply, dict) and set(reply) == {"count"} and is_below(reply["count"], 2**64):
        return COUNT, reply["count"], []
    if is_content(reply, width):
        return CONTENT, 0, reply
    if not isinstance(reply, str) or reply not in REPLIES:
        raise ValueError(f"no reply of {owners(width)}: {json.dumps(reply)}")
    return REPLIES[reply], 0, []


def owners(width):
    return f"a lock or a record of {width} words" if width else "a lock"


def events_of(number, entry, width):
    """The events of an entry, each with its place in the order."""
    returned = {"last", "reply"} if isinstance(entry, dict) and "last" in entry else set()
    if not isinstance(entry, dict) or set(entry) != {"call", "first", "thread"} | returned:
        raise ValueError("not an entry of an observed history")
    first, last, lane = entry["first"], entry.get("last", MOST_POSITIONS - 1), entry["thread"]
    if not is_below(lane, 64) or not is_below(first, MOST_POSITIONS) or not is_below(last, MOST_POSITIONS):
        raise ValueError("a thread or a position is out of range")
    if first > last:
        raise ValueError("its first position is above its last")
    yield (first, 0, number), lane, begin_of(entry["call"], width)
    if returned:
        yield (last, 1, number), lane, return_of(entry["reply"], width)


def stream_of(history):
    if not isinstance(history, dict) or not isinstance(history.get("entries"), list):
        raise ValueError("not an observed history")
    parts, events, open_lanes = [header_of(history)], [], set()
    for number, entry in enumerate(history["entries"]):
        try:
            events.extend(events_of(number, entry, history["width"]))
        except ValueError as wrong:
            raise ValueError(f"entry {number}: {wrong}") from None
    for (_, is_return, number), lane, (kind, value, words) in sorted(events):
        if not is_return and lane in open_lanes:
            raise ValueError(f"entry {number}: it overlaps a call of its thread")
        open_lanes ^= {lane}
        parts.append(EVENT.pack(kind, lane, value) + struct.pack(f"<{len(words)}Q", *words))
    return b"".join(parts)


def main():
    if len(sys.argv) != 1:
        sys.exit(__doc__)
    try:
        stream = stream_of(json.load(sys.stdin))
    except ValueError as wrong:
        sys.exit(f"history_to_stream: {wrong}")
    sys.stdout.buffer.write(stream)


if __name__ == "__main__":
    main()
