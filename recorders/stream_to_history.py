"""Prints a recorded stream of events as an observed history, as `stamped_explain` reads it.

    stream_to_history.py < run.events > run.json

A header of 16 bytes: `stmp`, the form's number (1), the layout (1 or 2), the readers (2 bytes) and the versions (8
bytes). Then 16 bytes an event, in their order: its kind, its lane (0 to 63), 6 bytes that are zero, and a number of 8
bytes. Numbers begin with their lowest byte. Kinds 0 to 16 begin a call on the lane, 32 to 37 return it, and 48
withdraws it (CALLS and REPLIES below). The number is a call's stamp, a stamp or a count that is returned, else 0.

Form 2 has guarded data, a record: behind the header its width (1 byte, 1 to 16 words) and 7 bytes that are zero. There
kinds 17 to 19 begin a `get`, `put` and `put_if`, and 38 returns a content. Behind an event stand its words, 8 bytes
each: of a `put` one content, of a `put_if` the expected one and the new one, and of a content that is returned itself.

A call's positions are the numbers of its events, from 0 on, and its thread is the lane. Entries stand in the order in
which their calls began. Withdrawn calls are left out; a call that has not ended is under way.

The status is 1 where this is no such stream, and standard error has a line, as `event 17: unknown kind 99`. If only
the last event is cut, as `head -c` cuts it, leave it out: what stands before it is a stream."""
import json
import struct
import sys

CALLS = ("try_write", "try_read", "write_lock", "read_lock", "optimistic", "validate", "unlock_write", "unlock_read",
         "unlock", "to_write", "to_read", "to_optimistic", "try_unlock_write", "try_unlock_read", "is_write_locked",
         "is_read_locked", "read_count")
WITH_STAMP = CALLS[5:12]
RECORD_CALLS = {17: "get", 18: "put", 19: "put_if"}
STAMP, COUNT, CONTENT, WITHDRAWN = 32, 37, 38, 48
REPLIES = {33: "yes", 34: "no", 35: "done", 36: "mismatch"}
# How many contents stand behind an event of form 2; behind others none.
CONTENTS = {18: 1, 19: 2, CONTENT: 1}
OF_RECORD = (*RECORD_CALLS, CONTENT)
HEADER, WIDTH, EVENT = struct.Struct("<4sBBHQ"), struct.Struct("<B7s"), struct.Struct("<BB6sQ")
MOST_WIDTH = 16


def must_have(data, at, size):
    if len(data) < at + size:
        raise ValueError(f"cut after {len(data) - at} of {size} bytes")


def read_width(data):
    must_have(data, 0, HEADER.size + WIDTH.size)
    width, zeros = WIDTH.unpack_from(data, HEADER.size)
    if not 1 <= width <= MOST_WIDTH:
        raise ValueError(f"width {width}")
    if any(zeros):
        raise ValueError("bytes 17 to 23 are not zero")
    return width


def read_header(data):
    """The fields of a history but its entries."""
    must_have(data, 0, HEADER.size)
    letters, form, layout, readers, versions = HEADER.unpack_from(data)
    if letters != b"stmp":
        raise ValueError("not a stream")
    if form not in (1, 2) or layout not in (1, 2):
        raise ValueError(f"form {form}, layout {layout}")
    fields = {"format": 1} if layout == 1 else {"format": 2, "layout": 2}
    return {**fields, "readers": readers, "versions": versions, "width": read_width(data) if form == 2 else 0}


def read_event(data, at, width):
    """The kind, the lane, the number and the contents of the event at this byte."""
    must_have(data, at, EVENT.size)
    kind, lane, zeros, number = EVENT.unpack_from(data, at)
    if kind >= len(CALLS) and kind not in (STAMP, COUNT, WITHDRAWN, *REPLIES, *(OF_RECORD if width else ())):
        raise ValueError(f"unknown kind {kind}")
    if lane > 63:
        raise ValueError(f"lane {lane} is above 63")
    if any(zeros):
        raise ValueError("bytes 2 to 7 are not zero")
    if number and kind not in (STAMP, COUNT) and (kind >= len(CALLS) or CALLS[kind] not in WITH_STAMP):
        raise ValueError(f"kind {kind} has the number {number}")
    many = width * CONTENTS.get(kind, 0)
    must_have(data, at, EVENT.size + 8 * many)
    words = struct.unpack_from(f"<{many}Q", data, at + EVENT.size)
    return kind, lane, number, [[*words[i:i + width]] for i in range(0, many, width or 1)]


def call_of(kind, number, contents):
    if kind in RECORD_CALLS:
        return [RECORD_CALLS[kind], *contents]
    return [CALLS[kind]] + [number] * (CALLS[kind] in WITH_STAMP)


def reply_of(kind, number, contents):
    if kind == STAMP:
        return number
    return {"count": number} if kind == COUNT else contents[0] if kind == CONTENT else REPLIES[kind]


def add_event(entries, lanes, position, event):
    """Adds the event to its entry; `lanes` has the calls under way."""
    kind, lane, *told = event
    if kind < STAMP:
        if lane in lanes:
            raise ValueError(f"a call begins in a call of lane {lane}")
        lanes[lane] = entries[position] = {"call": call_of(kind, *told), "first": position, "thread": lane}
        return
    if lane not in lanes:
        raise ValueError(f"no call of lane {lane} is open")
    entry = lanes.pop(lane)
    if kind == WITHDRAWN:
        del entries[entry["first"]]
    else:
        entry.update(last=position, reply=reply_of(kind, *told))


def history_of(data):
    entries, lanes, position = {}, {}, -1
    try:
        fields = read_header(data)
        at = HEADER.size + (WIDTH.size if fields["width"] else 0)
        while at < len(data):
            position += 1
            event = read_event(data, at, fields["width"])
            add_event(entries, lanes, position, event)
            at += EVENT.size + 8 * sum(map(len, event[3]))
    except ValueError as wrong:
        raise ValueError(f"{'header' if position < 0 else f'event {position}'}: {wrong}") from None
    return {"entries": [*entries.values()], **fields}


def main():
    if len(sys.argv) != 1:
        sys.exit(__doc__)
    try:
        history = history_of(sys.stdin.buffer.read())
    except ValueError as wrong:
        sys.exit(f"stream_to_history: {wrong}")
    print(json.dumps(history, separators=(",", ":"), sort_keys=True))


if __name__ == "__main__":
    main()
