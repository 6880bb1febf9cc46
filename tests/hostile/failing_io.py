"""Runs the programs where each read gives one byte and each write takes one, and fails each, one in each run.

    failing_io.py NARROW REFUSE STAMPED EXPLAIN WATCH PICTURE

A read that fails is told as `read fault`, and nothing is written; a write that fails, or that takes
no byte, is told as `write fault`, and what went out is the front of the line that came before it. A write of
a witness that fails is told, and changes nothing else: a front of the witness is left. No run leaves a block.
NARROW and REFUSE are the shims of narrow_io.c and refuse_malloc.c."""
import os
import subprocess
import sys
import tempfile

from counted_runs import CountedRuns

REPLAY = b'{"calls":[["try_read"],["to_write",257]],"readers":1,"versions":1}'
OBSERVING = b'{"calls":[["optimistic"],["validate",256]],"readers":127,"versions":1000}'
SCRIPT = b'{"readers":1,"steps":[0,0],"threads":[[["try_write"]]],"versions":1,"width":0}'
ENTRY = b'{"call":["try_write"],"first":0,"last":1,"point":1,"reply":%s,"thread":0}'
HISTORY = b'{"entries":[' + ENTRY + b'],"format":%s,"readers":1%s,"versions":1,"width":0}'
OLD = HISTORY % (b"384", b"1", b"")
TOLD = HISTORY % (b"384", b"1", b',"report":[[2,0]]')
NEW = (HISTORY % (b"196608", b"2", b"")).replace(b'"readers"', b'"layout":2,"readers"')
WRONG = HISTORY % (b"640", b"1", b"")
TABLE = [
    (["replay"], REPLAY, b'{"replies":[257,384],"word":384}', 0),
    (["replay"], OBSERVING, b'{"replies":[256,"yes"],"word":256}', 0),
    (["run"], SCRIPT, OLD, 0),
    (["run", "--report"], SCRIPT, TOLD, 0),
    (["check"], OLD, b"ok 1", 0),
    (["check"], WRONG, b"bad 0 reply", 1),
    (["migrate"], OLD, NEW, 0),
    (["stamp", "384"], b"", b"write 1", 0),
    (["stamp", "--layout", "2", "131073"], b"", b"read 0 1", 0),
]
OBSERVED = OLD.replace(b'"point":1,', b"")
FOUND = OLD.replace(b'"last":1,"point":1', b'"last":127,"point":0')
UNSEEN = OBSERVED.replace(b'"first":0', b'"first":2')
STUCK = OBSERVED.replace(b'"reply":384', b'"reply":385')
STUCK_LINE = b"stamped_explain: entry 0 of thread 0: try_write answered 385; possible: 384\n"
TRIED_LINE = (
    b"stamped_explain: 0 of 1 calls overlapped another; failed: attempts 0, validations 0, conversions 0\n"
)
EXPLAIN_TABLE = [
    ([], OBSERVED, FOUND, 0, b""),
    (["--most", "9"], OBSERVED, FOUND, 0, b""),
    ([], UNSEEN, b"bad 0 interval", 1, b""),
    ([], STUCK, b"stuck 0", 1, STUCK_LINE),
    (["--small"], STUCK, STUCK, 1, STUCK_LINE),
    (["--judge"], OBSERVED, b"ok 1", 0, b""),
    (["--judge", "--told"], OBSERVED, b"ok 1", 0, TRIED_LINE),
]
WHOLE = ["--from", "0", "--to", "9"]


def stream(*events):
    """A stream of a lock for one reader and one write acquisition."""
    header = b"stmp" + bytes([1, 1, 1, 0, 1, 0, 0, 0, 0, 0, 0, 0])
    return header + b"".join(bytes([kind, lane]) + bytes(6) + number.to_bytes(8, "little")
                             for kind, lane, number in events)


WRITTEN = stream((0, 0, 0), (32, 0, 384))
UNREAD = stream((2, 0, 0), (14, 1, 0), (33, 1, 0), (1, 1, 0), (32, 1, 257))
UNREAD_LINE = b"stamped_watch: event 4, lane 1: try_read answered 257\n"
UNWRITTEN = b"stamped_watch: can't write the witness\n"
WATCH_TABLE = [
    ([], WRITTEN, b"ok 1", 0, b""),
    ([], WRITTEN[:-1], b"bad 1 cut", 1, b""),
    (["--most", "9"], UNREAD, b"stuck 4", 1, UNREAD_LINE),
]


def fault_line(words, what):
    return b"%s: %s fault\n" % (os.path.basename(words[0]).encode(), what)


def assert_ended(words, answer, wanted, when):
    if answer != wanted:
        sys.exit(f"{words}, {when}: {answer}, and not {wanted}")


def reads_of(runs, words, text, ample):
    """Fails each read, one in each run, that of the end among them; returns how many there were."""
    reads = 0 if "stamp" in words[1:] else len(text) + 1
    for number in range(1, reads + 1):
        answer, _ = runs.ended(words, text, FAIL_READ=number)
        assert_ended(words, answer, (1, b"", fault_line(words, b"read")), f"read {number} fails")
    answer, _ = runs.ended(words, text, FAIL_READ=reads + 1)
    assert_ended(words, answer, ample, "no read fails")
    return reads


def writes_of(runs, words, text, ample, step=1):
    """Fails each write, or of so many one, in a run of its own, in both ways; returns how many there were."""
    line = ample[1]
    for number in range(1, len(line) + 1, step):
        front = (1, line[: number - 1], fault_line(words, b"write"))
        for way in ["FAIL_WRITE", "FULL_WRITE"]:
            answer, _ = runs.ended(words, text, **{way: number})
            assert_ended(words, answer, front, f"{way} {number}")
    answer, _ = runs.ended(words, text, FAIL_WRITE=len(line) + 1)
    assert_ended(words, answer, ample, "no write fails")
    return len(line)


def pictures_of(runs, picture):
    """The same of a picture, as SVG and in characters, and of a page, of whose many writes some are failed."""
    for words in [WHOLE, ["--text", *WHOLE]]:
        drawn, _ = runs.ended([picture, *words], OLD)
        reads = reads_of(runs, [picture, *words], OLD, drawn)
        writes = writes_of(runs, [picture, *words], OLD, drawn)
        print(f"{['stamped_picture', *words]}: {reads} reads and {writes} writes failed, one in each run")
    for text in [OLD, OBSERVED, STUCK]:
        page, _ = runs.ended([picture, "--html"], text)
        reads = reads_of(runs, [picture, "--html"], text, page)
        writes = writes_of(runs, [picture, "--html"], text, page, len(page[1]) // 40)
        print(f"['stamped_picture', '--html']: {reads} reads and 40 of {writes} writes failed, one in each run")


def help_of(runs, program):
    """What a program tells of itself, for which it reads nothing."""
    words = [program, "--help"]
    told, _ = runs.ended(words, OLD)
    writes = writes_of(runs, words, OLD, told)
    assert_ended(words, runs.ended(words, OLD, FAIL_READ=1)[0], told, "the first read fails")
    print(f"{[os.path.basename(program), *words[1:]]}: {writes} writes failed, one in each run")


def witness_of(runs, watch):
    """Fails each write of a witness, one in each run."""
    with tempfile.TemporaryDirectory() as room:
        path = os.path.join(room, "witness")
        words, found = [watch, "--witness", path], (1, b"stuck 4\n", UNREAD_LINE)
        assert_ended(words, runs.ended(words, UNREAD)[0], found, "no write fails")
        with open(path, "rb") as file:
            witness = file.read()
        for number in range(1, len(witness) + 1):
            answer, _ = runs.ended(words, UNREAD, FAIL_FILE=number)
            assert_ended(words, answer, (*found[:2], UNWRITTEN + UNREAD_LINE), f"write {number} fails")
            with open(path, "rb") as file:
                assert_ended(words, file.read(), witness[: number - 1], f"write {number} fails")
    print(f"['stamped_watch', '--witness']: {len(witness)} writes of a witness failed, one in each run")


def without_errors(explain):
    """Where nothing can be written to standard error, a stuck history is told as ever on standard output."""
    for words in [f"exec {explain} 2>/dev/full", f"exec {explain} 2>&-"]:
        ran = subprocess.run(["bash", "-c", words], input=STUCK, stdout=subprocess.PIPE, timeout=3600)
        assert_ended([words], (ran.returncode, ran.stdout), (1, b"stuck 0\n"), "no line on standard error")


def main():
    narrow, refuse, stamped, explain, watch, picture = (os.path.abspath(path) for path in sys.argv[1:])
    runs = CountedRuns(narrow, refuse)
    rows = [([stamped, *order], *row, b"") for order, *row in TABLE]
    rows += [([explain, *order], *row) for order, *row in EXPLAIN_TABLE]
    rows += [([watch, *order], *row) for order, *row in WATCH_TABLE]
    for words, text, line, status, note in rows:
        ample = (status, line + b"\n", note)
        reads = reads_of(runs, words, text, ample)
        writes = writes_of(runs, words, text, ample)
        print(f"{[os.path.basename(words[0]), *words[1:]]}: {reads} reads and {writes} writes failed, one in each run")
    pictures_of(runs, picture)
    for program in [explain, watch, picture]:
        help_of(runs, program)
    witness_of(runs, watch)
    without_errors(explain)
    runs.tell()


main()
