"""Histories that `stamped check` judges and `stamped migrate` converts, and what is printed."""
import itertools

from runs import LOST_ENTRIES, LOST_IN_TWO, history

PLAIN = '"versions":1000,"width":0'
REPORT = '"report":[[2,0],[2,0],[3,2]],'
TRY_WRITE, TRY_READ, READ_COUNT = '["try_write"]', '["try_read"]', '["read_count"]'
UNLOCK, DONE = '["unlock_write",384]', '"done"'
FORM, FORM_WIDE = '"format":1,"readers":127', '"format":2,"layout":2,"readers":127'
MOST, MOST_WIDE = '"versions":36028797018963966,"width":0', '"versions":70368744177662,"width":0'
WIDEST = '"format":2,"layout":2,"readers":65535'

LOST = history(LOST_ENTRIES, 0)
LOST_WIDE = history(LOST_IN_TWO, 0, FORM_WIDE)
# Format 2 may have layout 1 and an empty report.
SPACED = """ {"width":3, "versions":2,"report":[],"readers":127,"layout":1,
        "format":2,"entries":[] } """


def reported(text, report=REPORT):
    return text.replace('"versions"', report + '"versions"')


def of(entries, keys, form=FORM):
    """A history of entries as (thread, call, reply, first, point, last)."""
    written = ",".join(
        f'{{"call":{call},"first":{first},"last":{last},"point":{point},"reply":{reply},"thread":{thread}}}'
        for thread, call, reply, first, point, last in entries)
    return f'{{"entries":[{written}],{form},{keys}}}'


def judged(line, *entries, keys=PLAIN, form=FORM):
    return ("check", of(entries, keys, form), line)


def refused(line, *texts):
    return [(words, text, f"stamped: {line}") for text in texts for words in ("check", "migrate")]


def empty(keys, line):
    text = f'{{"entries":[],"readers":127,"versions":1000,"width":0{keys}}}'
    return ("check", text, line)


def second(entry, width=2):
    """A history with a get before this entry, or of width 0 this entry alone."""
    get = '{"call":["get"],"first":0,"last":0,"point":0,"reply":[7,7],"thread":63}'
    entries = f"{get},{entry}" if width else entry
    return f'{{"entries":[{entries}],"format":1,"readers":1,"report":5,"versions":0,"width":{width}}}'


LINEARIZED_ENTRIES_ARE_COUNTED = [judged("ok 0"), ("check", LOST, "ok 3")]

A_POINT_OUTSIDE_ITS_INTERVAL_IS_TOLD = [
    judged("bad 0 interval", (0, TRY_WRITE, "384", 2, 1, 3)),
    judged("bad 1 interval", (0, TRY_WRITE, "384", 0, 1, 1), (0, UNLOCK, DONE, 2, 4, 3)),
]

POINTS_THAT_DO_NOT_RISE_ARE_TOLD = [
    judged("bad 1 order", (0, TRY_WRITE, "384", 0, 1, 1), (1, TRY_WRITE, "384", 0, 1, 3)),
    judged("bad 1 order", (0, TRY_WRITE, "384", 4, 5, 6), (1, UNLOCK, DONE, 0, 1, 3)),
]

# The second begins before the first ends, or where it ends. The last thread is kept apart, too, and there is no other.
CALLS_OF_A_THREAD_THAT_OVERLAP_ARE_TOLD = [
    judged("bad 1 overlap", (0, TRY_WRITE, "384", 0, 1, 3), (0, UNLOCK, DONE, 2, 4, 5)),
    judged("bad 1 overlap", (0, TRY_WRITE, "384", 0, 0, 1), (0, UNLOCK, DONE, 1, 1, 2)),
    judged("bad 1 overlap", (63, TRY_WRITE, "384", 0, 1, 3), (63, UNLOCK, DONE, 2, 4, 5)),
    judged("ok 2", (63, TRY_WRITE, "384", 0, 1, 1), (63, UNLOCK, DONE, 2, 4, 5)),
    judged("stamped: over a limit: entry 0", (64, TRY_WRITE, "384", 0, 1, 1)),
]

AN_OVERLAP_IS_TOLD_PAST_ENTRIES_OF_OTHER_THREADS = [
    judged("bad 3 overlap", (0, TRY_READ, "257", 0, 1, 9), (1, TRY_READ, "258", 2, 2, 2),
           (2, READ_COUNT, '{"count":2}', 3, 3, 3), (0, READ_COUNT, '{"count":2}', 9, 10, 11)),
]

# With the versions spent a call does not wait.
A_CALL_THAT_WOULD_WAIT_HAS_NO_REPLY = [
    judged("bad 1 reply", (0, TRY_WRITE, "384", 0, 0, 0), (1, '["write_lock"]', "0", 1, 1, 1)),
    judged("ok 2", (0, TRY_WRITE, "384", 0, 0, 0), (1, '["write_lock"]', "0", 1, 1, 1),
           keys='"versions":1,"width":0'),
]

OTHER_REPLIES_ARE_TOLD = [
    # A second writer.
    judged("bad 1 reply", (0, TRY_WRITE, "384", 0, 1, 1), (1, TRY_WRITE, "384", 2, 3, 3)),
    judged("bad 0 reply", (0, '["get"]', "[1]", 0, 0, 0), keys='"versions":1000,"width":1'),
]

OPENING = (0, TRY_WRITE, "384", 0, 10, 100)
CAUSES = ("interval", "order", "overlap", "reply")


def second_with(*causes):
    """An entry after the opening one, with some of the four causes."""
    point = 10 if "order" in causes else 20
    return (0 if "overlap" in causes else 1, UNLOCK, '"mismatch"' if "reply" in causes else DONE, 5, point,
            point - 1 if "interval" in causes else 200)


def third_with(cause):
    """An entry after those two, with one cause, or none."""
    return (1 if cause == "overlap" else 2, '["validate",256]', '"yes"' if cause == "reply" else '"no"', 5,
            20 if cause == "order" else 30, 29 if cause == "interval" else 300)


OF_CAUSES_IN_ONE_ENTRY_THE_FIRST_IS_TOLD = [
    judged(f"bad 1 {causes[0]}" if causes else "ok 2", OPENING, second_with(*causes))
    for count in range(5) for causes in itertools.combinations(CAUSES, count)
] + [
    # The first entry may have two causes.
    judged("bad 0 interval", (0, TRY_WRITE, reply, 2, 1, 3)) for reply in ("385", '"yes"')
]

OF_CAUSES_IN_TWO_ENTRIES_THE_EARLIER_IS_TOLD = [
    judged(f"bad 1 {earlier}", OPENING, second_with(earlier), third_with(later))
    for earlier in CAUSES for later in CAUSES
] + [
    judged(f"bad 2 {later}" if later else "ok 3", OPENING, second_with(), third_with(later))
    for later in (*CAUSES, None)
]

# Calls one after the other, their replies, and for each one that it doesn't have.
HELD = [
    ('["get"]', "[0]", "[5]"), ('["put",[5]]', DONE, '"yes"'), ('["get"]', "[5]", "[0]"),
    ('["put_if",[5],[6]]', '"yes"', '"no"'), ('["get"]', "[6]", "[5]"), ('["put_if",[5],[0]]', '"no"', '"yes"'),
    (TRY_WRITE, "0", "[6]"), ('["get"]', "[6]", "6")]

A_RECORD_STARTS_WITH_ZEROS_AND_HOLDS_WHAT_WAS_PUT = [
    judged("ok 8" if wrong is None else f"bad {wrong} reply",
           *((0, call, other if at == wrong else reply, at, at, at) for at, (call, reply, other) in enumerate(HELD)),
           keys='"versions":0,"width":1')
    for wrong in (None, *range(8))
]

LAYOUT_TWO_IS_CHECKED_BY_ITS_STAMPS = [
    judged("ok 3", (0, TRY_WRITE, "196608", 0, 0, 0), (0, UNLOCK, '"mismatch"', 1, 1, 1),
           (0, '["unlock_write",196608]', DONE, 2, 2, 2), keys=MOST_WIDE, form=WIDEST),
    judged("bad 0 reply", (0, TRY_WRITE, "384", 0, 0, 0), keys=MOST_WIDE, form=WIDEST),
]

A_LONG_HISTORY_IS_CHECKED_IN_ONE_WALK = [
    judged("ok 64000", *((0, *((TRY_READ, "257"), ('["try_unlock_read"]', '"yes"'))[at % 2], at, at, at)
                         for at in range(64_000))),
]

A_REPORT_IS_READ_AND_NOT_JUDGED = [
    ("check", reported(LOST), "ok 3"),
    ("check", reported(LOST, '"report":[[0,18446744073709551615],[7,7],[1,0]],'), "ok 3"),
    ("check", reported(LOST, '"report":[[2,0]],'), "stamped: not a history: report"),
    ("check", reported(of([(0, TRY_WRITE, "384", 0, 0, 0)], PLAIN), '"report":[[18446744073709551615,7]],'), "ok 1"),
]

KEYS = [
    empty(',"format":1', "ok 0"),
    empty(',"format":2,"layout":1', "ok 0"),
    empty(',"format":2,"layout":2', "ok 0"),
    empty(',"format":1,"report":[]', "ok 0"),
    ("check", SPACED, "ok 0"),
    ("check", "[" * 127 + "]" * 127, "stamped: not a history: top"),
    ("check", "[" * 128 + "]" * 128, "stamped: not json"),
]

THE_FIRST_FAULT_OF_THE_FIELDS = (
    refused("not json", "", "{", "[1e400]", '{"entries":[],"format":1,"readers":1,"width":0}}')
    + refused(
        "not a history: top", "{}", "[]", "0",
        '{"entries":[],"readers":127,"versions":1000,"width":0}',
        '{"entries":5,"format":7,"readers":0,"versions":-1}',
        '{"entries":[],"format":1,"readers":1,"versions":1,"widths":0}',
        '{"calls":[],"entries":[],"format":1,"readers":1,"versions":1,"width":0}',
        '{"entries":[],"format":2,"layout":2,"readers":1,"versions":1,"width":0,"word":256}')
    + refused(
        "not a history: format",
        '{"entries":5,"format":2,"readers":0,"versions":1,"width":0}',
        '{"entries":5,"format":1,"layout":9,"readers":0,"versions":1,"width":0}',
        '{"entries":[],"format":"1","readers":1,"versions":1,"width":0}',
        '{"entries":[],"format":1.0,"readers":1,"versions":1,"width":0}',
        '{"entries":[],"format":3,"layout":2,"readers":1,"versions":1,"width":0}',
        '{"entries":[],"format":2,"readers":1,"report":[],"versions":1,"width":0}',
        LOST.replace('"format":1', '"format":1,"layout":1'),
        LOST.replace('"format":1', '"format":2'))
    + refused(
        "not a history: layout",
        '{"entries":5,"format":2,"layout":0,"readers":0,"versions":1,"width":0}',
        '{"entries":[],"format":2,"layout":3,"readers":1,"versions":1,"width":0}',
        '{"entries":[],"format":2,"layout":"2","readers":1,"versions":1,"width":0}',
        LOST.replace('"format":1', '"format":2,"layout":3'))
    + refused("not a history: readers", '{"entries":5,"format":1,"readers":null,"versions":-1,"width":0}')
    + refused(
        "over a limit: readers",
        '{"entries":5,"format":1,"readers":0,"versions":"1","width":0}',
        '{"entries":[],"format":1,"readers":128,"versions":1,"width":0}',
        '{"entries":[],"format":2,"layout":2,"readers":65536,"versions":1,"width":0}')
    + refused("not a history: versions", '{"entries":5,"format":1,"readers":1,"versions":-1,"width":17}')
    + refused(
        "over a limit: versions",
        '{"entries":5,"format":1,"readers":1,"versions":36028797018963967,"width":"0"}',
        '{"entries":[],"format":2,"layout":2,"readers":1,"versions":70368744177663,"width":0}')
    + refused("not a history: width", '{"entries":5,"format":1,"readers":1,"versions":0,"width":[]}')
    + refused("over a limit: width", '{"entries":5,"format":1,"readers":1,"versions":0,"width":17}')
    + refused("not a history: entries",
              '{"entries":{},"format":1,"readers":1,"report":5,"versions":0,"width":16}')
    + refused("not a history: entry 0", f'{{"entries":[{",".join("0" * 640_000)}],'
              '"format":1,"readers":1,"versions":0,"width":0}',
              '{"entries":[[]],"format":1,"readers":1,"report":5,"versions":0,"width":2}')
    + refused("over a limit: entries", f'{{"entries":[{",".join("0" * 640_001)}],'
              '"format":1,"readers":1,"versions":0,"width":0}'))

A_HIGH_THREAD = '{"call":["get"],"first":0,"last":0,"point":0,"reply":0,"thread":64}'

NO_ENTRIES = (
    refused("not a history: entry 1", *(second(entry) for entry in (
        "[]",
        '{"call":["get"],"first":0,"last":0,"point":0,"reply":0}',
        '{"call":["get"],"first":0,"last":0,"more":0,"point":0,"reply":0,"thread":0}',
        '{"call":["gets"],"first":0,"last":0,"point":0,"reply":0,"thread":0}',
        '{"call":["get",0],"first":0,"last":0,"point":0,"reply":0,"thread":64}',
        '{"call":["unlock"],"first":0,"last":0,"point":0,"reply":0,"thread":64}',
        '{"call":["unlock",[0,0]],"first":0,"last":0,"point":0,"reply":0,"thread":0}',
        '{"call":["put",[0]],"first":0,"last":0,"point":0,"reply":0,"thread":0}',
        '{"call":["put",0],"first":0,"last":0,"point":0,"reply":0,"thread":0}',
        '{"call":["put_if",[0,0],[0,0,0]],"first":0,"last":0,"point":0,"reply":0,"thread":0}',
        '{"call":["get"],"first":-1,"last":0,"point":0,"reply":0,"thread":0}',
        '{"call":["get"],"first":0,"last":0,"point":0.0,"reply":0,"thread":0}',
        '{"call":["get"],"first":0,"last":0,"point":0,"reply":"maybe","thread":0}',
        '{"call":["get"],"first":0,"last":0,"point":0,"reply":{"count":1,"of":2},"thread":0}',
        '{"call":["get"],"first":0,"last":0,"point":0,"reply":[],"thread":0}',
        '{"call":["get"],"first":0,"last":0,"point":0,"reply":null,"thread":0}')))
    + refused("over a limit: entry 1", second(A_HIGH_THREAD))
    + refused("not a history: entry 0", second(A_HIGH_THREAD, 0))
    + refused("not a history: entry 4", of([(0, '["optimistic"]', "256", 0, 0, 0)] * 4, PLAIN).replace("}]", "},0]")))

A_REPORT_HAS_A_PAIR_FOR_EACH_ENTRY = refused("not a history: report", *(
    '{"entries":[{"call":["read_count"],"first":0,"last":0,"point":0,"reply":0,"thread":0}],"format":1,'
    f'"readers":1,"versions":0,"width":0,"report":{report}}}'
    for report in ("5", "[]", "[[1,2],[1,2]]", "[[1]]", "[[1,2,3]]", "[[1,-2]]", "[5]")))

A_REPLY_WITHOUT_A_PLACE_IN_LAYOUT_TWO = [
    ("migrate", of([(0, TRY_WRITE, reply, 0, 0, 0)], PLAIN), "stamped: bad reply at entry 0")
    for reply in ("128", "9223372036854775424")
] + [
    ("migrate", of([(0, '["optimistic"]', "256", 0, 0, 0)] * 7 + [(0, TRY_WRITE, "128", 0, 0, 0)], PLAIN),
     "stamped: bad reply at entry 7"),
]

HISTORIES = (
    LINEARIZED_ENTRIES_ARE_COUNTED + A_POINT_OUTSIDE_ITS_INTERVAL_IS_TOLD + POINTS_THAT_DO_NOT_RISE_ARE_TOLD
    + CALLS_OF_A_THREAD_THAT_OVERLAP_ARE_TOLD + AN_OVERLAP_IS_TOLD_PAST_ENTRIES_OF_OTHER_THREADS
    + A_CALL_THAT_WOULD_WAIT_HAS_NO_REPLY + OTHER_REPLIES_ARE_TOLD + OF_CAUSES_IN_ONE_ENTRY_THE_FIRST_IS_TOLD
    + OF_CAUSES_IN_TWO_ENTRIES_THE_EARLIER_IS_TOLD + A_RECORD_STARTS_WITH_ZEROS_AND_HOLDS_WHAT_WAS_PUT
    + LAYOUT_TWO_IS_CHECKED_BY_ITS_STAMPS + A_LONG_HISTORY_IS_CHECKED_IN_ONE_WALK + A_REPORT_IS_READ_AND_NOT_JUDGED
    + KEYS + THE_FIRST_FAULT_OF_THE_FIELDS + NO_ENTRIES + A_REPORT_HAS_A_PAIR_FOR_EACH_ENTRY
    + A_REPLY_WITHOUT_A_PLACE_IN_LAYOUT_TWO)

FOREIGN_ENTRY = (0, '["unlock",128]', '"mismatch"', 0, 0, 0)
FOREIGN_WIDE = (
    '{"entries":[{"call":["unlock",0],"first":0,"last":0,"point":0,"reply":"mismatch","thread":0}],"format":2,'
    '"layout":2,"readers":127,"versions":1000,"width":0}')
WRONG = of([(0, TRY_WRITE, "257", 0, 0, 0)], PLAIN)
WRONG_WIDE = (
    '{"entries":[{"call":["try_write"],"first":0,"last":0,"point":0,"reply":131073,"thread":0}],"format":2,'
    '"layout":2,"readers":127,"versions":1000,"width":0}')

# The write stamp of layout 1 after those whose versions layout 2 has.
FAR = 18_014_398_509_481_856

A_HISTORY_IS_SPELLED_IN_LAYOUT_TWO = [
    (LOST, LOST_WIDE, "ok 3"),
    (LOST.replace('"format":1', '"format":2,"layout":1'), LOST_WIDE, "ok 3"),
    (reported(LOST), reported(LOST_WIDE), "ok 3"),
    (WRONG, WRONG_WIDE, "bad 0 reply"),
]

STAMPS_KEEP_KIND_VERSION_AND_COUNT = [
    (of([(0, f'["to_read",{narrow}]', narrow, 0, 0, 0)], PLAIN),
     of([(0, f'["to_read",{wide}]', wide, 0, 0, 0)], PLAIN, FORM_WIDE), "bad 0 reply" if narrow else "ok 1")
    for narrow, wide in (
        (256, 131_072), (257, 131_073), (383, 131_199), (384, 196_608), (512, 262_144), (513, 262_145),
        (640, 327_680), (FAR - 256, 9_223_372_036_854_579_200), (FAR - 128, 9_223_372_036_854_644_736),
        (FAR - 1, 9_223_372_036_854_644_863), (0, 0))
]

A_NUMBER_THAT_IS_NO_STAMP_OF_LAYOUT_TWO_IS_CALLED_AS_ZERO = [
    (of([FOREIGN_ENTRY], PLAIN), FOREIGN_WIDE, "ok 1"),
    (of([FOREIGN_ENTRY], MOST), FOREIGN_WIDE.replace(PLAIN, MOST_WIDE), "ok 1"),
] + [
    (of([(0, f'["{call}",{number}]', '"mismatch"', 0, 0, 0)], PLAIN),
     of([(0, f'["{call}",0]', '"mismatch"', 0, 0, 0)], PLAIN, FORM_WIDE),
     "ok 1" if call.startswith("unlock") else "bad 0 reply")
    for number in (128, 255, 385, 511, FAR, FAR + 128, 18_446_744_073_709_551_615)
    for call in ("validate", "unlock_write", "unlock_read", "unlock", "to_write", "to_read", "to_optimistic")
]

OTHERS = [(0, *call_and_reply, 0, 0, 0) for call_and_reply in (
    (READ_COUNT, '{"count":384}'), ('["try_unlock_read"]', '"yes"'), ('["put",[384]]', DONE),
    ('["put_if",[384],[384]]', '"no"'), ('["get"]', "[384]"))]

OTHER_CALLS_AND_REPLIES_STAY = [
    (of(OTHERS, '"versions":1000,"width":1'), of(OTHERS, '"versions":1000,"width":1', FORM_WIDE), "bad 0 reply"),
]

VERSIONS_ARE_THOSE_THAT_LAYOUT_TWO_HAS = [
    (f'{{"entries":[],"format":1,"readers":{readers},"versions":{before},"width":0}}',
     f'{{"entries":[],"format":2,"layout":2,"readers":{readers},"versions":{after},"width":0}}', "ok 0")
    for readers, before, after in (
        (1, 0, 0), (127, 70_368_744_177_661, 70_368_744_177_661), (127, 70_368_744_177_662, 70_368_744_177_662),
        (127, 70_368_744_177_663, 70_368_744_177_662), (127, 36_028_797_018_963_966, 70_368_744_177_662))
] + [
    (SPACED, '{"entries":[],"format":2,"layout":2,"readers":127,"versions":2,"width":3}', "ok 0"),
]

A_HISTORY_OF_LAYOUT_TWO_COMES_BACK = [
    (text, text, verdict) for text, verdict in (
        (LOST_WIDE, "ok 3"),
        (reported(LOST_WIDE), "ok 3"),
        (of([(0, '["unlock",128]', "128", 0, 0, 0), (0, '["validate",131072]', "384", 0, 0, 0)],
            '"versions":5,"width":0', WIDEST), "bad 0 reply"))
]

MIGRATED = (
    A_HISTORY_IS_SPELLED_IN_LAYOUT_TWO + STAMPS_KEEP_KIND_VERSION_AND_COUNT
    + A_NUMBER_THAT_IS_NO_STAMP_OF_LAYOUT_TWO_IS_CALLED_AS_ZERO + OTHER_CALLS_AND_REPLIES_STAY
    + VERSIONS_ARE_THOSE_THAT_LAYOUT_TWO_HAS + A_HISTORY_OF_LAYOUT_TWO_COMES_BACK)


def each_cut():
    return [LOST[:end] for end in range(len(LOST))]
