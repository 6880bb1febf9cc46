"""Texts that the program `stamped_explain` is given: what it prints, what it says on standard error, and its status.

    explained.py STAMPED_EXPLAIN"""
import itertools
import json
import subprocess
import sys

# A write that another thread's optimistic read overlaps, and its release.
SEEN = """{"entries":[
    {"call":["unlock",384],"first":3,"last":5,"reply":"done","thread":0},
    {"call":["try_write"],"first":0,"last":2,"reply":384,"thread":0},
    {"call":["optimistic"],"first":1,"last":4,"reply":0,"thread":1}],
    "format":1,"readers":1,"versions":1,"width":0}"""
# The same calls, with points.
FOUND = ('{"entries":[{"call":["try_write"],"first":0,"last":191,"point":0,"reply":384,"thread":0},'
         '{"call":["optimistic"],"first":64,"last":319,"point":64,"reply":0,"thread":1},'
         '{"call":["unlock",384],"first":192,"last":383,"point":192,"reply":"done","thread":0}],'
         '"format":1,"readers":1,"versions":1,"width":0}')
# A reader with a stamp of none, beside a writer and a reader. One position is possible when the first returns; of the
# calls up to there alone two are, since the others' replies aren't known then.
UNEXPLAINED = """{"entries":[
    {"call":["try_read"],"first":0,"last":10,"reply":600,"thread":0},
    {"call":["try_write"],"first":0,"last":11,"reply":384,"thread":1},
    {"call":["try_read"],"first":0,"last":12,"reply":0,"thread":2}],
    "format":1,"readers":3,"versions":1,"width":0}"""
# A write and its release, each alone; an optimistic read that a write overlaps; and what fails then: a validation, a
# conversion, and each of the three that ask for a stamp.
TRIED = """{"entries":[
    {"call":["try_write"],"first":0,"last":1,"reply":384,"thread":0},
    {"call":["unlock",384],"first":2,"last":3,"reply":"done","thread":0},
    {"call":["optimistic"],"first":4,"last":9,"reply":512,"thread":0},
    {"call":["try_write"],"first":5,"last":8,"reply":640,"thread":1},
    {"call":["validate",512],"first":10,"last":11,"reply":"no","thread":0},
    {"call":["to_read",512],"first":12,"last":13,"reply":0,"thread":0},
    {"call":["try_read"],"first":14,"last":15,"reply":0,"thread":0},
    {"call":["try_write"],"first":16,"last":17,"reply":0,"thread":0},
    {"call":["optimistic"],"first":18,"last":19,"reply":0,"thread":0},
    {"call":["is_read_locked"],"first":20,"last":21,"reply":"no","thread":0}],
    "format":1,"readers":1,"versions":9,"width":0}"""

STUCK = SEEN.replace('"reply":0', '"reply":768')
STUCK_NOTE = "entry 2 of thread 1: optimistic answered 768; possible: 256, 0, 512"
# Each answer: what is given, the number behind `--most` if there is one, and what is written, said, and the status.
ANSWERS = [
    ("an explained history", SEEN, None, FOUND, "", 0),
    ("a stuck one, with all possible replies", STUCK, None, "stuck 2", STUCK_NOTE, 1),
    ("an undecided one", SEEN, 0, "undecided 1", "", 1),
    ("one that no order explains", UNEXPLAINED, 1, "undecided 0",
     "no order explains the history; from which return on is undecided", 1),
    ("calls of a thread that overlap", SEEN.replace('"thread":1', '"thread":0'), None, "bad 2 overlap", "", 1),
    ("a call that ends before it begins", SEEN.replace('"first":3', '"first":6'), None, "bad 0 interval", "", 1),
    ("an entry that is none", SEEN.replace('"first":1,', ""), None, "", "not a history: entry 2", 1),
    ("no input", "", None, "", "no input", 1),
    ("a blank", " ", None, "", "not json", 1),
]


def second(entry):
    """A history of width 2 whose entry 1 is this one, with what is none behind it."""
    return ('{"entries":[{"call":["get"],"first":0,"thread":0},' + entry
            + ',0],"format":1,"readers":1,"versions":0,"width":2}')


# What is refused, most with two faults, of which the first in the order of the fields is told.
REFUSED = [
    ("not a history: top", "[]",
     '{"entries":[],"format":1,"readers":1,"report":[],"versions":1,"width":0}',
     '{"entries":[],"format":2,"layout":2,"readers":1,"report":[],"versions":1,"width":0}',
     '{"entries":[],"format":7,"readers":1,"versions":1}'),
    ("not a history: format",
     '{"entries":5,"format":2,"readers":0,"versions":1,"width":0}',
     '{"entries":5,"format":1,"layout":2,"readers":0,"versions":1,"width":0}'),
    ("not a history: layout", '{"entries":5,"format":2,"layout":3,"readers":0,"versions":1,"width":0}'),
    ("not a history: readers", '{"entries":5,"format":1,"readers":"1","versions":-1,"width":0}'),
    ("over a limit: readers", '{"entries":5,"format":1,"readers":128,"versions":-1,"width":0}'),
    ("not a history: versions", '{"entries":5,"format":1,"readers":127,"versions":-1,"width":17}'),
    ("over a limit: versions",
     '{"entries":5,"format":2,"layout":2,"readers":65535,"versions":70368744177663,"width":17}'),
    ("not a history: width", '{"entries":5,"format":1,"readers":1,"versions":0,"width":[]}'),
    ("over a limit: width", '{"entries":5,"format":1,"readers":1,"versions":0,"width":17}'),
    ("not a history: entries", '{"entries":{},"format":1,"readers":1,"versions":0,"width":16}'),
    ("not a history: entry 0", '{"entries":[0],"format":1,"readers":1,"versions":0,"width":16}'),
    ("not a history: entry 1", *map(second, (
        "[]", '{"call":["get"],"first":0}', '{"call":["get"],"first":0,"last":0,"thread":0}',
        '{"call":["get"],"first":0,"reply":0,"thread":0}',
        '{"call":["get"],"first":0,"last":0,"point":0,"reply":0,"thread":0}',
        '{"call":["get"],"first":0,"last":0,"more":0,"thread":0}',
        '{"call":["get"],"first":0,"last":0,"reply":null,"thread":64}',
        '{"call":["put",[0]],"first":0,"thread":64}', '{"call":["unlock",[0,0]],"first":0,"thread":0}'))),
    ("over a limit: entry 1", *map(second, (
        '{"call":["get"],"first":0,"thread":64}', '{"call":["get"],"first":288230376151711744,"thread":63}',
        '{"call":["get"],"first":288230376151711744,"last":0,"reply":0,"thread":0}',
        '{"call":["get"],"first":0,"last":288230376151711744,"reply":0,"thread":0}'))),
]
LAST = 288_230_376_151_711_743
# Of each call its thread, its first position, and its last, unless it is under way: the first that can't have been seen
# is named. Of the others those that returned explain the history.
SEEN_CALLS = [
    ("ok 0",), ("ok 1", (0, 0, 0)), ("bad 0 interval", (0, 1, 0)), ("bad 1 overlap", (0, 0, 3), (0, 3, 5)),
    ("ok 2", (0, 0, 3), (0, 4, 5)), ("ok 2", (0, 0, 3), (1, 2, 5)), ("ok 2", (0, 4, 5), (0, 0, 3)),
    ("bad 1 overlap", (0, 4, 5), (0, 0, 4)), ("ok 1", (0, 4, None), (0, 0, 3)),
    ("bad 1 overlap", (0, 4, None), (0, LAST, LAST)), ("bad 1 overlap", (0, 4, None), (0, 7, None)),
    ("bad 1 interval", (0, 0, 9), (0, 5, 4)), ("bad 1 overlap", (0, 0, 9), (0, 5, 6), (1, 3, 2)),
    ("bad 1 interval", (0, 0, 9), (1, 3, 2), (0, 5, 6)),
    ("bad 3 overlap", (0, 0, 1), (0, 9, 9), (1, 0, None), (0, 5, 9), (1, 1, None)),
]
# What the calls of a history tried, and its number of calls.
TOLD = [
    (SEEN, 3, "3 of 3 calls overlapped another; failed: attempts 1, validations 0, conversions 0"),
    (TRIED, 10, "2 of 10 calls overlapped another; failed: attempts 3, validations 1, conversions 1"),
]
WRONG = TRIED.replace("640", "768")
WRONG_NOTE = "entry 3 of thread 1: try_write answered 768; possible: 640"
# What a stuck history is made: all calls of the one up to the wrong reply, each of which matters; those of the other
# without the read, which doesn't.
SMALL = [
    (STUCK, STUCK_NOTE, '{"entries":[{"call":["try_write"],"first":0,"last":2,"reply":384,"thread":0},'
     '{"call":["unlock",384],"first":3,"thread":0},'
     '{"call":["optimistic"],"first":1,"last":4,"reply":768,"thread":1}],'
     '"format":1,"readers":1,"versions":1,"width":0}'),
    (WRONG, WRONG_NOTE, '{"entries":[{"call":["try_write"],"first":0,"last":1,"reply":384,"thread":0},'
     '{"call":["unlock",384],"first":2,"last":3,"reply":"done","thread":0},'
     '{"call":["try_write"],"first":5,"last":8,"reply":768,"thread":1}],'
     '"format":1,"readers":1,"versions":9,"width":0}'),
]
# With two positions the return of entry 5 is stuck: a reader or the writer took effect first. Where entry 5 may have
# been that reader, there are three, so what it could have answered is undecided.
LONG = """{"entries":[
    {"call":["try_write"],"first":1,"thread":7},
    {"call":["try_read"],"first":0,"last":8,"reply":0,"thread":1},
    {"call":["try_read"],"first":0,"thread":2},
    {"call":["try_read"],"first":0,"thread":3},
    {"call":["optimistic"],"first":0,"last":5,"reply":0,"thread":0},
    {"call":["try_read"],"first":0,"last":6,"reply":999,"thread":4},
    {"call":["read_count"],"first":7,"last":9,"reply":{"count":0},"thread":5}],
    "format":1,"readers":127,"versions":100,"width":0}"""
LONG_NOTE = "entry 5 of thread 4: try_read answered 999; what was possible is undecided"
# What the program tells of itself: each of its options, and how many positions it keeps without `--most`.
HELPED = ["stamped_explain [--judge] [--told] [--small] [--most N]", "4000000", "--judge  ", "--told  ", "--small  ",
          "stamped_explain --help\n"]
# The words that may stand in any order: which ask for a judgement, for what was tried, and for a small history.
WORDS = ["--judge", "--told", "--small"]
MOST = ["0", "5", "18446744073709551615"]
# Other words are no form.
BAD = [
    "--most 18446744073709551616", "--most +1", "--most", "--more 1", "--help --judge", "--judge --judge",
    "--judge --told --judge", "--judge --most -1", "--judge --most", "--most --judge 1", "--most 1 --most 1",
    "--judge --told --most 1 --told", "--judge --told --small --most 1 --told", "--most 1 --judge --most 1",
    "--judge 1", "1", "1 --judge", "--small 1 --told", "-",
]


def ended(program, words, text):
    """What the program writes and says, and its status."""
    run = subprocess.run([program, *words], input=text.encode(), capture_output=True, timeout=3600)
    return run.stdout.decode(), run.stderr.decode(), run.returncode


def sorted_note(said):
    """What is said, with the possible replies, which come in any order, in one."""
    rest, possible, replies = said.partition("; possible: ")
    return rest + possible + ", ".join(sorted(replies.rstrip("\n").split(", ")))


def expect(program, words, text, written, said, status):
    """The program writes this line and says that one, if they are not empty, and ends so."""
    found = ended(program, words, text)
    wanted = (written + "\n" * bool(written), f"stamped_explain: {said}\n" * bool(said), status)
    if (found[0], sorted_note(found[1]), found[2]) != (wanted[0], sorted_note(wanted[1]), wanted[2]):
        sys.exit(f"{words} {text[:300]}\ngives {found}\nand not {wanted}")


def try_answers(program):
    """A judgement takes the place of the history alone."""
    for _, text, most, written, said, status in ANSWERS:
        words = [] if most is None else ["--most", str(most)]
        expect(program, words, text, written, said, status)
        expect(program, ["--judge", *words], text, "ok 3" if written == FOUND else written, said, status)
    print(f"answers: {2 * len(ANSWERS)} as they are to be")


def try_refused(program):
    for said, *texts in REFUSED:
        for text in texts:
            expect(program, [], text, "", said, 1)
    print(f"refused texts: {sum(len(texts) for _, *texts in REFUSED)} as they are to be")


def text_of(calls):
    entries = ",".join(
        f'{{"call":["optimistic"],"first":{first},"thread":{thread}'
        + ("}" if last is None else f',"last":{last},"reply":256}}') for thread, first, last in calls)
    return f'{{"format":1,"readers":1,"versions":1,"width":0,"entries":[{entries}]}}'


def try_seen(program):
    for line, *calls in SEEN_CALLS:
        expect(program, ["--judge"], text_of(calls), line, "", 0 if line.startswith("ok ") else 1)
    print(f"calls that were seen, or can't have been: {len(SEEN_CALLS)} as they are to be")


def try_told(program):
    """What the calls tried is told beside a history that is explained, and of a stuck one what was possible."""
    for text, count, tried in TOLD:
        expect(program, ["--judge", "--told"], text, f"ok {count}", tried, 0)
    expect(program, ["--judge", "--told"], WRONG, "stuck 3", WRONG_NOTE, 1)
    print(f"what was tried: {len(TOLD) + 1} as they are to be")


def try_small(program):
    """A small history takes the place of the entry alone, and is stuck itself; so does the run where none is found."""
    for text, note, small in SMALL:
        expect(program, ["--small"], text, small, note, 1)
        expect(program, [], small, "stuck 2", note.replace("entry 3", "entry 2"), 1)
    expect(program, ["--most", "1"], LONG, "undecided 4", "", 1)
    expect(program, ["--most", "2"], LONG, "stuck 5", LONG_NOTE, 1)
    small = ended(program, ["--small", "--most", "2"], LONG)[0]
    calls = json.loads(small)["entries"]
    if len(calls) > 6 or not ended(program, ["--most", "2"], small)[0].startswith(f"stuck {len(calls) - 1}\n"):
        sys.exit(f"small of {LONG}\ngives {small}")
    print(f"small histories: {len(SMALL) + 1} as they are to be")


def forms_with(*option):
    """Some of the words, in every order, with the words of an option at every place."""
    for words in (words for count in range(4) for words in itertools.permutations(WORDS, count)):
        for place in range(len(words) + 1) if option else [0]:
            yield [*words[:place], *option, *words[place:]]


def try_forms(program):
    """Five positions are enough for these calls. With none the first return is undecided, that of entry 1."""
    tried = 0
    for most, words in ((most, words) for most in [None, *MOST]
                        for words in forms_with(*(["--most", most] if most else []))):
        found = "ok 3" if "--judge" in words else FOUND, TOLD[0][2] if "--told" in words else "", 0
        expect(program, words, SEEN, *(("undecided 1", "", 1) if most == "0" else found))
        if most is None:
            expect(program, words, STUCK, SMALL[0][2] if "--small" in words else "stuck 2", STUCK_NOTE, 1)
        tried += 1
    helped = subprocess.run([program, "--help"], input=SEEN.encode(), capture_output=True, timeout=3600)
    if helped.returncode or helped.stderr or not all(it.encode() in helped.stdout for it in HELPED):
        sys.exit(f"--help gives {helped}")
    for words in BAD:
        expect(program, words.split(), SEEN, "", "bad command line", 2)
    print(f"command lines: {tried + 1 + len(BAD)} as they are to be")


def main():
    program = sys.argv[1]
    try_answers(program)
    try_refused(program)
    try_seen(program)
    try_told(program)
    try_small(program)
    try_forms(program)


main()
