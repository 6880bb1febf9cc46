"""Streams and observed histories, converted to each other by recorders/stream_to_history.py and history_to_stream.py.

    round_trips.py EXPLAIN

Run at the top of the repository. Threads make random calls on the lock of bench/common/call_table.py, which take effect
at some moment between the two events of each; some are withdrawn, and some under way at the end. Some have a record
besides. Their streams are explained. With a reply changed they are judged alike before and after a conversion. A stream
without withdrawn calls comes back byte for byte, and a history with its positions numbered anew. Small ones of a record
are as a table says. Broken streams and histories are told as what they are, at their event or entry."""
import json
import random
import sys

from streams import (CONTENT, COUNT, DONE, EVENT, GET, HEADER, MISMATCH, NO, PUT, PUT_IF, STAMP, TO_HISTORY, TO_STREAM,
                     WIDE_HEADER, WITHDRAWN, YES, event_at, fail, history_of, kinds_of, must_be_explained, run,
                     stream_of, verdict, wide_events_of, with_event)

sys.path[:0] = ["bench/common", "recorders"]
import call_table  # noqa: E402 (a file of bench/common)
import history_to_stream  # noqa: E402 (a file of recorders)
import stream_to_history  # noqa: E402 (a file of recorders)

LIMITS = (127, 1000)
NAMES = ("try_write", "try_read", "write_lock", "read_lock", "optimistic", "validate", "unlock_write", "unlock_read",
         "unlock", "to_write", "to_read", "to_optimistic", "try_unlock_write", "try_unlock_read", "is_write_locked",
         "is_read_locked", "read_count")
RECORD_NAMES = ("get", "put", "put_if")
KINDS = {"yes": YES, "no": NO, "done": DONE, "mismatch": MISMATCH}
SIZES = [(1, 40), (2, 200), (5, 400), (16, 400), (64, 400)]
# With how many words a record.
WIDE_SIZES = [(1, 100, 2), (3, 200, 1), (5, 200, 3), (16, 200, 16), (64, 200, 2)]


def header(layout=1, readers=127, versions=1000, form=1):
    return b"stmp" + bytes([form, layout]) + readers.to_bytes(2, "little") + versions.to_bytes(8, "little")


def wide_header(width, **fields):
    return header(form=2, **fields) + width.to_bytes(8, "little")


def event(kind, lane=0, number=0, *words):
    return bytes([kind, lane, 0, 0, 0, 0, 0, 0]) + b"".join(it.to_bytes(8, "little") for it in (number, *words))


def returned(lane, reply):
    if isinstance(reply, dict):
        return event(COUNT, lane, reply["count"])
    if isinstance(reply, list):
        return event(CONTENT, lane, 0, *reply)
    return event(KINDS[reply], lane) if isinstance(reply, str) else event(STAMP, lane, reply)


class Lock:
    """A lock, perhaps with a record, and of each lane the call that is open: its name, its stamp or contents, and its
    reply once it took effect."""

    def __init__(self, chance, lanes, width):
        self.chance, self.word, self.open, self.lanes, self.stamps = chance, 256, {}, lanes, [0, 256]
        self.content = [0] * width

    def begin_of_record(self, lane):
        name = self.chance.choice(("get", *RECORD_NAMES))
        contents = [[self.chance.choice((0, 1, 2**64 - 1)) for _ in self.content] for _ in
                    range(RECORD_NAMES.index(name))]
        if name == "put_if" and self.chance.random() < 0.7:
            contents[0] = self.content
        self.open[lane] = [name, contents, None]
        return event(GET + len(contents), lane, 0, *sum(contents, []))

    def change_record(self, call):
        name, contents, _ = call
        call[2] = {"get": self.content, "put": "done"}.get(name, "yes" if contents[:1] == [self.content] else "no")
        if call[2] in ("done", "yes"):
            self.content = contents[-1]

    def begin(self, lane):
        if self.content and self.chance.random() < 0.5:
            return self.begin_of_record(lane)
        name = self.chance.choice(NAMES)
        stamp = self.chance.choice(self.stamps[-4:]) if 5 <= NAMES.index(name) <= 11 else 0
        self.open[lane] = [name, stamp, None]
        return event(NAMES.index(name), lane, stamp)

    def take_effect(self, lane):
        name, stamp, _ = self.open[lane]
        if name in RECORD_NAMES:
            self.change_record(self.open[lane])
            return
        made = call_table.TABLE[name](LIMITS, self.word, stamp)
        if made is None:
            return
        word, reply = made
        self.word = self.word if word is None else word
        self.open[lane][2] = reply
        if type(reply) is int and reply:
            self.stamps.append(reply)

    def step(self, withdraws):
        """An event, or none: a call begins, takes effect or ends."""
        lane = self.chance.randrange(self.lanes)
        if self.open and self.chance.random() < 0.7:
            lane = self.chance.choice([*self.open])
        if lane not in self.open:
            return self.begin(lane)
        if self.open[lane][2] is None:
            if withdraws and self.chance.random() < 0.1:
                del self.open[lane]
                return event(WITHDRAWN, lane)
            self.take_effect(lane)
            return b""
        return returned(lane, self.open.pop(lane)[2])


def made_stream(chance, lanes, events, withdraws, width=0):
    lock = Lock(chance, lanes, width)
    begun = wide_header(width, versions=LIMITS[1]) if width else header(versions=LIMITS[1])
    return begun + b"".join(lock.step(withdraws) for _ in range(2 * events))


def numbered_anew(history):
    """The history with its entries and positions in the order of a stream."""
    entries = history["entries"]
    moments = [(entry["first"], 0, i) for i, entry in enumerate(entries)]
    moments += [(entry["last"], 1, i) for i, entry in enumerate(entries) if "last" in entry]
    places = {moment: place for place, moment in enumerate(sorted(moments))}
    found = []
    for i, entry in enumerate(entries):
        told = {"last": places[entry["last"], 1, i]} if "last" in entry else {}
        found.append({**entry, "first": places[entry["first"], 0, i], **told})
    return {**history, "entries": sorted(found, key=lambda entry: entry["first"])}


def disturbed(chance, history):
    """Its entries in another order, with positions further apart, where some events of different threads are at one."""
    entries = [dict(entry) for entry in history["entries"]]
    threads = {entry[key]: entry["thread"] for entry in entries for key in ("first", "last") if key in entry}
    places, place, together = {}, 0, set()
    for position in sorted(threads):
        if threads[position] in together or chance.random() < 0.5:
            place, together = place + chance.randint(1, 5), set()
        places[position] = place
        together.add(threads[position])
    for entry in entries:
        entry.update({key: places[entry[key]] for key in ("first", "last") if key in entry})
    chance.shuffle(entries)
    return {**history, "entries": entries}


def with_wrong_reply(chance, stream):
    """The stream with one stamp changed that a call returned."""
    stamps = [i for i in range((len(stream) - HEADER) // EVENT) if stream[HEADER + EVENT * i] == STAMP]
    number = chance.choice(stamps)
    kind, lane, value = event_at(stream, number)
    return with_event(stream, number, kind, lane, value + chance.choice([1, 128, 256]))


def with_wrong_content(chance, stream):
    """The stream with one word changed that a get returned, to one that nobody put."""
    events = [*wide_events_of(stream)]
    number = chance.choice([i for i, it in enumerate(events) if it[0] == CONTENT])
    kind, lane, value, words = events[number]
    events[number] = kind, lane, value, (*words[:-1], 7)
    return stream[:WIDE_HEADER] + b"".join(event(*it[:3], *it[3]) for it in events)


def entry_told(history, found):
    """The verdict, with the entry that it names."""
    words = found.split()
    return words[0], history["entries"][int(words[1])] if words[0] == "stuck" else None


def convert(name, explain, chance, stream, wrong_stream):
    """How many calls the stream has, and whether it is stuck with the wrong reply."""
    history = must_be_explained(name, explain, stream)
    back = history_to_stream.stream_of(history)
    if WITHDRAWN not in kinds_of(stream) and back != stream or history_of(name, back) != numbered_anew(history):
        fail(name, "the stream doesn't come back")
    other = disturbed(chance, history)
    if stream_to_history.history_of(history_to_stream.stream_of(other)) != numbered_anew(other):
        fail(name, "the history doesn't come back")
    wrong = stream_to_history.history_of(wrong_stream)
    again = stream_to_history.history_of(history_to_stream.stream_of(wrong))
    found = entry_told(numbered_anew(wrong), verdict(explain, numbered_anew(wrong)))
    if found != entry_told(again, verdict(explain, again)):
        fail(name, "judged otherwise", found)
    return len(history["entries"]), found[0] == "stuck"


def try_converted(explain):
    chance, told = random.Random(3), []
    for lanes, events, width in [*((*size, 0) for size in SIZES), *WIDE_SIZES]:
        for withdraws in (False, True):
            stream = made_stream(chance, lanes, events, withdraws, width)
            wrong = with_wrong_content(chance, stream) if width else with_wrong_reply(chance, stream)
            told.append(convert(f"{lanes} lanes, {width} words", explain, chance, stream, wrong))
    return len(told), sum(calls for calls, _ in told), sum(is_stuck for _, is_stuck in told)


def entry(call, first, *last, lane=0):
    """An entry, with where it returned and its reply, if it has."""
    return {"call": call, "first": first, "thread": lane, **dict(zip(("last", "reply"), last))}


LARGEST = 2**64 - 1
TABLE = [
    (1, [], []),
    (16, [entry(["get"], 0, 1, [0] * 16)], [event(GET), event(CONTENT, 0, 0, *[0] * 16)]),
    (1, [entry(["put", [LARGEST]], 0, 3, "done"), entry(["get"], 1, 2, [LARGEST], lane=63)],
     [event(PUT, 0, 0, LARGEST), event(GET, 63), event(CONTENT, 63, 0, LARGEST), event(DONE)]),
    (2, [entry(["put_if", [0, 0], [1, 2]], 0, 1, "yes"), entry(["put_if", [1, 3], [4, 5]], 2, 3, "no")],
     [event(PUT_IF, 0, 0, 0, 0, 1, 2), event(YES), event(PUT_IF, 0, 0, 1, 3, 4, 5), event(NO)]),
    (2, [entry(["get"], 0), entry(["put", [1, 2]], 1, lane=1), entry(["put_if", [1, 2], [3, 4]], 2, lane=2)],
     [event(GET), event(PUT, 1, 0, 1, 2), event(PUT_IF, 2, 0, 1, 2, 3, 4)]),
    (1, [entry(["get"], 0, 5, [0]), entry(["optimistic"], 1, 2, 256, lane=24),
         entry(["validate", 256], 3, 4, "yes", lane=24)],
     [event(GET), event(4, 24), event(STAMP, 24, 256), event(5, 24, 256), event(YES, 24), event(CONTENT, 0, 0, 0)]),
]


def try_table():
    """Each history is this stream, and the stream this history. A withdrawn call has no entry."""
    for width, entries, events in TABLE:
        history, stream = {**HISTORY, "width": width, "entries": entries}, wide_header(width) + b"".join(events)
        if history_of("table", stream) != history or stream_of("table", history) != stream:
            fail("table", json.dumps(history), stream.hex())
    withdrawn = wide_header(1) + event(GET) + event(WITHDRAWN) + event(PUT, 1, 0, 5) + event(WITHDRAWN, 1)
    if history_of("table", withdrawn)["entries"]:
        fail("table", "a withdrawn call has an entry")


READ = event(1, 3)
BROKEN_STREAMS = [
    (b"", "header: cut after 0 of 16 bytes"),
    (header()[:15], "header: cut after 15 of 16 bytes"),
    (b"stamp" + header()[5:], "header: not a stream"),
    (header(form=0), "header: form 0, layout 1"), (header(form=3), "header: form 3, layout 1"),
    (header(layout=3), "header: form 1, layout 3"),
    (header() + READ[:1], "event 0: cut after 1 of 16 bytes"),
    (header() + READ + event(STAMP, 3, 257)[:15], "event 1: cut after 15 of 16 bytes"),
    (header() + event(17), "event 0: unknown kind 17"),
    (header() + READ + event(38, 3), "event 1: unknown kind 38"),
    (header() + READ + event(47, 3), "event 1: unknown kind 47"),
    (header() + READ + event(255, 3), "event 1: unknown kind 255"),
    (header() + READ + event(STAMP, 2, 257), "event 1: no call of lane 2 is open"),
    (header() + READ + event(STAMP, 3, 257) + event(WITHDRAWN, 3), "event 2: no call of lane 3 is open"),
    (header() + READ + READ, "event 1: a call begins in a call of lane 3"),
    (header() + event(1, 64), "event 0: lane 64 is above 63"),
    (header() + READ + event(STAMP, 255), "event 1: lane 255 is above 63"),
    *[(header() + READ[:byte] + b"\1" + READ[byte + 1:], "event 0: bytes 2 to 7 are not zero") for byte in range(2, 8)],
    (header() + event(1, 3, 5), "event 0: kind 1 has the number 5"),
    (header() + READ + event(NO, 3, 1), "event 1: kind 34 has the number 1"),
    (header() + READ + event(WITHDRAWN, 3, 1), "event 1: kind 48 has the number 1"),
    *[(header() + event(kind, 0, 0, 1), f"event 0: unknown kind {kind}") for kind in (GET, PUT, PUT_IF, CONTENT)],
]
WIDE = wide_header(2)
BROKEN_WIDE_STREAMS = [
    *[(WIDE[:size], f"header: cut after {size} of 24 bytes") for size in (16, 23)],
    *[(wide_header(width), f"header: width {width}") for width in (0, 17, 255)],
    *[(WIDE[:byte] + b"\1" + WIDE[byte + 1:], "header: bytes 17 to 23 are not zero") for byte in range(17, 24)],
    (wide_header(2, layout=3), "header: form 2, layout 3"),
    *[(WIDE + event(kind), f"event 0: unknown kind {kind}") for kind in (20, 31, 39, 47, 49)],
    *[(WIDE + event(kind, 0, 5, *[0] * 4), f"event 0: kind {kind} has the number 5") for kind in (GET, PUT, PUT_IF)],
    (WIDE + event(GET) + event(CONTENT, 0, 5, 0, 0), "event 1: kind 38 has the number 5"),
    (WIDE + event(GET)[:15], "event 0: cut after 15 of 16 bytes"),
    *[(WIDE + event(PUT, 0, 0, 1, 2)[:size], f"event 0: cut after {size} of 32 bytes") for size in (16, 24, 31)],
    (WIDE + event(PUT_IF, 0, 0, 1, 2, 3), "event 0: cut after 40 of 48 bytes"),
    (WIDE + event(GET) + event(CONTENT, 0, 0, 1), "event 1: cut after 24 of 32 bytes"),
    (WIDE + event(PUT, 0, 0, 1, 2) + event(1), "event 1: a call begins in a call of lane 0"),
    (WIDE + event(1) + event(GET), "event 1: a call begins in a call of lane 0"),
    (WIDE + event(CONTENT, 0, 0, 1, 2), "event 0: no call of lane 0 is open"),
    (WIDE + event(PUT, 64, 0, 1, 2), "event 0: lane 64 is above 63"),
]

ENTRY = {"call": ["unlock", 257], "first": 0, "last": 9, "reply": "done", "thread": 1}
HISTORY = {"entries": [], "format": 1, "readers": 127, "versions": 1000, "width": 0}
NOTHING = "not an observed history"
BROKEN_HISTORIES = [
    ([], NOTHING), ({**HISTORY, "format": 2}, NOTHING), ({**HISTORY, "layout": 2}, NOTHING),
    ({**HISTORY, "format": 2, "layout": 3}, NOTHING), ({**HISTORY, "more": 1}, NOTHING),
    ({**HISTORY, "entries": 1}, NOTHING),
    *[({**HISTORY, "width": width}, f"width {width} are no number below 17") for width in (17, -1)],
    ({**HISTORY, "readers": 65536}, "readers 65536 are no number below 65536"),
    ({**HISTORY, "versions": -1}, "versions -1 are no number below 18446744073709551616"),
]
BROKEN_ENTRIES = [
    (7, "not an entry of an observed history"), ({**ENTRY, "point": 3}, "not an entry of an observed history"),
    ({key: ENTRY[key] for key in ("call", "first", "last", "thread")}, "not an entry of an observed history"),
    ({**ENTRY, "call": ["get"]}, 'no call of a lock: ["get"]'),
    ({**ENTRY, "call": ["unlock"]}, 'no call of a lock: ["unlock"]'),
    ({**ENTRY, "call": ["try_read", 1]}, 'no call of a lock: ["try_read", 1]'),
    ({**ENTRY, "call": []}, "no call of a lock: []"),
    ({**ENTRY, "call": ["unlock", 2**64]}, 'no call of a lock: ["unlock", 18446744073709551616]'),
    ({**ENTRY, "reply": "ok"}, 'no reply of a lock: "ok"'), ({**ENTRY, "reply": [1]}, "no reply of a lock: [1]"),
    ({**ENTRY, "reply": True}, "no reply of a lock: true"),
    ({**ENTRY, "thread": 64}, "a thread or a position is out of range"),
    ({**ENTRY, "last": 2**58}, "a thread or a position is out of range"),
    ({**ENTRY, "first": 10}, "its first position is above its last"),
    ({**ENTRY, "first": 5, "last": 5}, "it overlaps a call of its thread"),
    ({**ENTRY, "first": 9, "last": 12}, "it overlaps a call of its thread"),
]
BROKEN_CALLS = (["put"], ["put", [1]], ["put", [1, 2, 3]], ["put", [1, 2**64]], ["put", 5], ["put", [1, 2], [3, 4]],
                ["put_if", [1, 2]], ["put_if", [1, 2], [3]], ["get", [1, 2]], ["unlock", [1, 2]], ["take"], [])
BROKEN_REPLIES = ([], [1], [1, 2, 3], [1, -1], [1, True], "ok")
WIDE_OWNERS = "a lock or a record of 2 words"
BROKEN_WIDE_ENTRIES = [
    *[({**ENTRY, "call": call}, f"no call of {WIDE_OWNERS}: {json.dumps(call)}") for call in BROKEN_CALLS],
    *[({**ENTRY, "reply": reply}, f"no reply of {WIDE_OWNERS}: {json.dumps(reply)}") for reply in BROKEN_REPLIES],
    ({**ENTRY, "call": ["get"], "first": 9, "last": 12}, "it overlaps a call of its thread"),
]


def told_of(made, broken):
    try:
        return f"converted to {made(broken)}"
    except ValueError as wrong:
        return str(wrong)


def try_broken():
    """All by the functions, and one of each kind by the programs."""
    streams, histories = BROKEN_STREAMS + BROKEN_WIDE_STREAMS, BROKEN_HISTORIES.copy()
    for width, entries in (0, BROKEN_ENTRIES), (2, BROKEN_WIDE_ENTRIES):
        histories += [({**HISTORY, "width": width, "entries": [ENTRY, broken]}, f"entry 1: {told}")
                      for broken, told in entries]
    for made, (broken, wanted) in [*((stream_to_history.history_of, it) for it in streams),
                                   *((history_to_stream.stream_of, it) for it in histories)]:
        if told_of(made, broken) != wanted:
            fail("broken", wanted, told_of(made, broken))
    for words, text, wanted in ((TO_HISTORY, streams[-1][0], f"stream_to_history: {streams[-1][1]}\n"),
                                (TO_STREAM, json.dumps(histories[0][0]), f"history_to_stream: {histories[0][1]}\n"),
                                (TO_STREAM, "[", "history_to_stream: Expecting value: line 1 column 2 (char 1)\n")):
        made = run(words, text if isinstance(text, bytes) else text.encode())
        if (made.returncode, made.stdout, made.stderr.decode()) != (1, b"", wanted):
            fail("broken", wanted, made.returncode, made.stdout, made.stderr)
    return len(streams) + len(histories) + 1


def try_layout_2():
    fields = {"layout": 2, "readers": 65535, "versions": 7}
    for width, begun in (0, header(**fields)), (3, wide_header(3, **fields)):
        stream = begun + event(2) + event(STAMP, 0, 196608)
        history = history_of("layout 2", stream)
        wanted = {**fields, "entries": history["entries"], "format": 2, "width": width}
        if history != wanted or stream_of("layout 2", history) != stream:
            fail("layout 2", history)


def main():
    streams, total, stuck = try_converted(sys.argv[1])
    try_layout_2()
    try_table()
    broken = try_broken()
    print(f"round_trips: {total} calls in {streams} streams converted and explained, {stuck} with a wrong reply stuck, "
          f"{broken} broken ones told")


if __name__ == "__main__":
    main()
