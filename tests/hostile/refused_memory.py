"""Runs programs with each of their allocations refused, one in each run, until a run makes fewer.

    refused_memory.py SHIM STAMPED EXPLAIN WATCH PICTURE TRIAL

With ample memory each ends as the table says. A refused run of `stamped`, `stamped_explain`, `stamped_watch`
or `stamped_picture` ends with the memory line, status 1 and nothing on standard output, or as with ample memory;
where a note or a witness is due, also with a line that there was no memory for it. Each of these lines is told in
some run: one allocation alone is refused, so there is memory for the line. Where another fault is told with ample
memory, that for its line may be refused, and then none is told. One of TRIAL ends with status 1 and no output, or as
with ample memory. A refused step of a schedule is made again there, so some refused runs end as with ample memory.

No run leaves a block: what a refused call was given by value, or had made, is dropped, or comes back. With a word
of REFUSALS, TRIAL makes calls that are refused for another cause than want of memory.

TRIAL makes as many allocations where it makes records and judges or migrates them as where it only
makes them: so judging and migrating take no memory. It makes as many where handles and guards come to the values
of locks as where it only makes the locks: so these take none."""
import os
import subprocess
import sys

from counted_runs import CountedRuns

REPLAY = b'{"calls":[["try_read"],["to_write",257],["read_count"]],"readers":1,"versions":1}'
WAITS = b'{"calls":[["try_read"],["write_lock"]],"readers":1,"versions":1}'
REPLIES = b'{"replies":[257,384,{"count":0}],"word":384}\n'
SCRIPT = (
    b'{"readers":1,"steps":[0,0,1,1],"threads":[[["try_write"]],[["unlock",[0,0]]]],'
    b'"versions":1,"width":0}'
)
HISTORY = (
    b'{"entries":[{"call":["try_write"],"first":0,"last":1,"point":1,"reply":384,"thread":0},'
    b'{"call":["unlock",384],"first":2,"last":3,"point":3,"reply":"done","thread":1}],'
    b'"format":1,"readers":1,%s"versions":1,"width":0}\n'
)
BAD_HISTORY = (
    b'{"entries":[{"call":["try_write"],"first":1,"last":1,"point":0,"reply":384,"thread":0}],'
    b'"format":1,"readers":1,"versions":1,"width":0}'
)
WIDE_HISTORY = (
    b'{"entries":[{"call":["try_write"],"first":1,"last":1,"point":0,"reply":196608,"thread":0}],'
    b'"format":2,"layout":2,"readers":1,"versions":1,"width":0}\n'
)
FOREIGN_HISTORY = (
    b'{"entries":[{"call":["try_write"],"first":0,"last":0,"point":0,"reply":128,"thread":0}],'
    b'"format":1,"readers":1,"versions":1,"width":0}'
)
FOREIGN_LINE = b"stamped: bad reply at entry 0\n"
NO_THREAD = b'{"readers":1,"steps":[0,64],"threads":[[]],"versions":1,"width":0}'
NO_THREAD_LINE = b"stamped: script refused: no thread at step 1\n"
NO_HISTORY_LINE = b"stamped: not a history: top\n"
OBSERVED = (
    b'{"entries":[{"call":["unlock",384],"first":3,"last":5,"reply":"done","thread":0},'
    b'{"call":["try_write"],"first":0,"last":2,"reply":%s,"thread":0},'
    b'{"call":["try_read"],"first":9,"thread":1}],'
    b'"format":1,"readers":1,"versions":1,"width":0}'
)
STUCK_LINE = b"stamped_explain: entry 1 of thread 0: try_write answered 385; possible: 384\n"
SMALL = (
    b'{"entries":[{"call":["try_write"],"first":0,"last":2,"reply":385,"thread":0}],'
    b'"format":1,"readers":1,"versions":1,"width":0}\n'
)
# The read doesn't matter; the put does.
WRONG_GET = (
    b'{"entries":[{"call":["put",[1]],"first":0,"last":1,"reply":"done","thread":0},%s'
    b'{"call":["get"],"first":2,"last":4,"reply":[2],"thread":0}],'
    b'"format":1,"readers":1,"versions":1,"width":1}\n'
)
BESIDE = b'{"call":["try_read"],"first":2,"last":3,"reply":257,"thread":1},'
WRONG_GET_LINE = b"stamped_explain: entry 2 of thread 0: get answered [2]; possible: [1]\n"
STREAM = b"stmp" + bytes([1, 1, 1, 0, 1, 0, 0, 0, 0, 0, 0, 0])
WRITTEN, UNREAD = (
    STREAM + b"".join(bytes([kind, lane]) + bytes(6) + number.to_bytes(8, "little") for kind, lane, number in events)
    for events in (
        [(0, 0, 0), (32, 0, 384)],
        [(2, 0, 0), (14, 1, 0), (33, 1, 0), (1, 1, 0), (32, 1, 257)],
    )
)
UNREAD_LINE = b"stamped_watch: event 4, lane 1: try_read answered 257\n"
OVERLAPPING = (OBSERVED % b"384").replace(b'"first":3', b'"first":2')
FOUND = (
    b'{"entries":[{"call":["try_write"],"first":0,"last":191,"point":0,"reply":384,"thread":0},'
    b'{"call":["unlock",384],"first":192,"last":383,"point":192,"reply":"done","thread":0}],'
    b'"format":1,"readers":1,"versions":1,"width":0}\n'
)
SILENT = (1, b"", b"")
NO_INPUT = (1, b"", b"stamped_explain: no input\n")
TRIED_LINE = (
    b"stamped_explain: 0 of 2 calls overlapped another; failed: attempts 0, validations 0, conversions 0\n"
)
WORDS = [["--from", "2", "--to", "3"], ["--text", "--width", "40"]]
REFUSALS = [
    "record",
    "long_record",
    "script",
    "script_width",
    "step",
    "replay",
    "book",
    "put",
    "read_replay",
    "read_script",
    "read_history",
    "replay_text",
    "serve",
    "read_fault",
    "write_fault",
    "too_long",
]
MOST = 10_000
BAD_REPLY = (HISTORY % b"").replace(b'"done"', b'"yes"')
# What pages are made of, and how that ends: histories in order, bad, explained, stuck, and of no observer.
PAGES = [(HISTORY % b"", 0), (BAD_REPLY, 1), (OBSERVED % b"384", 0), (OBSERVED % b"385", 1), (OVERLAPPING, 1)]


def line_of(program, text):
    return f"{os.path.basename(program)}: {text}\n".encode()


def bad_line(program):
    return 2, b"", line_of(program, "bad command line")


def no_note(program):
    return line_of(program, "no memory for the note")


def drawn(picture, text, status, *words):
    """What the program draws, or tells of itself, with ample memory; tests/pictures.py looks at pictures."""
    ran = subprocess.run([picture, *words], input=text, capture_output=True, timeout=3600)
    return status, ran.stdout, b""


def runs_of(runs, words, text, wanted, refusals):
    """Refuses each allocation, one in each run; returns how many there were, and how many runs bore it. Each of
    the refusals must come."""
    ample, _ = runs.ended(words, text)
    if ample != wanted:
        sys.exit(f"{words}: {ample}, and not {wanted}")
    # Memory for the line that tells of another fault may be refused.
    borne, ends, silent = 0, set(), [SILENT] if ample[:2] == SILENT[:2] else []
    for number in range(1, MOST):
        answer, was_refused = runs.ended(words, text, REFUSE=number)
        if answer != ample and not (was_refused and answer in [*refusals, *silent]):
            sys.exit(f"{words} with allocation {number} refused: {answer}, and not {ample}")
        if not was_refused:
            if not ends.issuperset(refusals):
                sys.exit(f"{words}: of {number - 1} refused runs none ended with one of {refusals}")
            return number - 1, borne
        borne += answer == ample
        ends.add(answer)
    sys.exit(f"{words}: over {MOST} allocations")


def main():
    shim, stamped, explain, watch, picture, trial = (os.path.abspath(path) for path in sys.argv[1:])
    runs = CountedRuns(shim)
    told, untold, unwatched, undrawn = ([(1, b"", line_of(it, "memory"))] for it in (stamped, explain, watch, picture))
    unwitnessed = [(1, b"stuck 4\n", line_of(watch, "no memory for the witness") + UNREAD_LINE)]
    table = [
        ([stamped, "replay"], REPLAY, (0, REPLIES, b""), told),
        ([stamped, "replay"], WAITS, (1, b"", b"stamped: call 1 waits\n"), told),
        ([stamped, "replay"], b"[", (1, b"", b"stamped: not json\n"), told),
        ([stamped, "run"], SCRIPT, (0, HISTORY % b"", b""), told),
        ([stamped, "run", "--report"], SCRIPT, (0, HISTORY % b'"report":[[2,0],[2,0]],', b""), told),
        ([stamped, "check"], HISTORY % b"", (0, b"ok 2\n", b""), told),
        ([stamped, "check"], BAD_HISTORY, (1, b"bad 0 interval\n", b""), told),
        ([stamped, "migrate"], BAD_HISTORY, (0, WIDE_HISTORY, b""), told),
        ([stamped, "migrate"], FOREIGN_HISTORY, (1, b"", FOREIGN_LINE), told),
        ([stamped, "check"], NO_THREAD, (1, b"", NO_HISTORY_LINE), told),
        ([stamped, "run"], NO_THREAD, (1, b"", NO_THREAD_LINE), told),
        ([stamped, "stamp", "257"], b"", (0, b"read 0 1\n", b""), told),
        ([stamped, "stamp", "--layout", "2", "196608"], b"", (0, b"write 1\n", b""), told),
        ([stamped, "lock"], b"", bad_line(stamped), told),
        ([stamped], b"", bad_line(stamped), told),
        ([stamped, b"\xff"], b"", bad_line(stamped), told),
    ]
    table += [
        ([explain], OBSERVED % b"384", (0, FOUND, b""), untold),
        ([explain, "--most", "9"], OBSERVED % b"385", (1, b"stuck 1\n", STUCK_LINE),
         [*untold, (1, b"stuck 1\n", no_note(explain))]),
        ([explain, "--most", "0"], OBSERVED % b"384", (1, b"undecided 1\n", b""), untold),
        ([explain], OVERLAPPING, (1, b"bad 1 overlap\n", b""), untold),
        ([explain], NO_THREAD, (1, b"", b"stamped_explain: not a history: top\n"), untold),
        ([explain, "--judge"], OBSERVED % b"384", (0, b"ok 2\n", b""), untold),
        ([explain, "--told", "--most", "9"], OBSERVED % b"384", (0, FOUND, TRIED_LINE),
         [*untold, (0, FOUND, no_note(explain))]),
        ([explain, "--small"], OBSERVED % b"385", (1, SMALL, STUCK_LINE), [*untold, (1, SMALL, no_note(explain))]),
        ([explain, "--judge", "--small"], WRONG_GET % BESIDE, (1, WRONG_GET % b"", WRONG_GET_LINE),
         [*untold, (1, WRONG_GET % b"", no_note(explain))]),
        ([explain, "--judge"], b"", NO_INPUT, untold),
        ([explain, "--help"], b"", drawn(explain, b"", 0, "--help"), untold),
        ([explain, "--most"], b"", bad_line(explain), untold),
        ([explain, "--most", "-1"], b"", bad_line(explain), untold),
        ([explain, b"\xff"], b"", bad_line(explain), untold),
        ([watch], WRITTEN, (0, b"ok 1\n", b""), unwatched),
        ([watch], WRITTEN[:-1], (1, b"bad 1 cut\n", b""), unwatched),
        *(([watch, *words], UNREAD, (1, b"stuck 4\n", UNREAD_LINE),
           [*unwatched, (1, b"stuck 4\n", no_note(watch)), *more])
          for words, more in ([["--most", "9"], []], [["--witness", "/dev/null"], unwitnessed])),
        ([watch], b"stmp", (1, b"bad header cut\n", b""), unwatched),
        ([watch, "--help"], b"", drawn(watch, b"", 0, "--help"), unwatched),
        ([watch, "--most"], b"", bad_line(watch), unwatched),
        ([watch, b"\xff"], b"", bad_line(watch), unwatched),
        ([picture], HISTORY % b"", drawn(picture, HISTORY % b"", 0), undrawn),
        *(([picture, *words], BAD_REPLY, drawn(picture, BAD_REPLY, 1, *words), undrawn) for words in WORDS),
        *(([picture, "--html"], text, drawn(picture, text, status, "--html"), undrawn) for text, status in PAGES),
        ([picture], NO_THREAD, (1, b"", b"stamped_picture: not a history: top\n"), undrawn),
        ([picture, "--html"], NO_THREAD, (1, b"", b"stamped_picture: not a history: top\n"), undrawn),
        ([picture], b"[", (1, b"", b"stamped_picture: not json\n"), undrawn),
        ([picture, "--help"], b"", drawn(picture, b"", 0, "--help"), undrawn),
        ([picture, "--from", "2"], b"", bad_line(picture), undrawn),
        ([picture, "--text", "--width", "0"], b"", bad_line(picture), undrawn),
    ]
    right = b"", (0, b"right\n", b""), [SILENT]
    table += [([trial, word], *right) for word in [*REFUSALS, "worked", "make", "check", "migrate", "own", "guard"]]
    table += [([trial], *right)]
    trials = {}
    for words, text, wanted, refusals in table:
        count, borne = runs_of(runs, words, text, wanted, refusals)
        print(f"{[os.path.basename(words[0]), *words[1:]]}: {count} allocations refused, one in each run")
        if words[0] == trial:
            trials[words[-1]] = count, borne
    if min(trials[trial][1], trials["worked"][1]) <= trials["make"][1]:
        sys.exit(f"{trial}: no refused step was made again")
    if not 0 < trials["make"][0] == trials["check"][0] == trials["migrate"][0]:
        sys.exit(f"{trial}: judging or migrating took memory: {trials}")
    if not 0 < trials["own"][0] == trials["guard"][0]:
        sys.exit(f"{trial}: handles or guards took memory: {trials}")
    runs.tell()


main()
