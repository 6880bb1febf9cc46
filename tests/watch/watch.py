"""Streams judged by `stamped_watch`, and as histories by `stamped_explain`.

    watch.py WATCH EXPLAIN

Run at the top of the repository. Threads make random calls on the lock of bench/common/call_table.py; some are
withdrawn, and some under way at the end. Their streams are explained, with all their calls. With a reply changed a
stream is stuck at an event exactly where what was seen by then is stuck as a history, and is explained before; where
no call is withdrawn, it is so of the whole history, too. Both programs tell the same call and reply, and, but for
stamps, the same possible replies. A witness of a stuck stream is a history that is stuck at the same call, and found of
nine in ten, behind many events, too; of no other stream is one written. Without one its file stays, and if one was due
it is told why. Progress is told each 2^24 events. Broken streams are told at their event. A stream may come in pieces
of any length, the program ends once something is found, and long streams take no more memory than short ones."""
import contextlib
import itertools
import json
import os
import random
import re
import subprocess
import sys
import tempfile

from round_trips import SIZES, event, header, made_stream, with_wrong_reply
from streams import (BEGINS, COUNT, DONE, EVENT, HEADER, MISMATCH, NO, STAMP, WITHDRAWN, YES, entry_that_returns_at, fail,
                     history_of, kinds_of, run, started, verdict)

READ, SEEN = event(1, 3), event(4) + event(STAMP, 0, 256)
SEEN_AGAIN = event(4, 1) + event(STAMP, 1, 256)
MOST_MEMORY = 64 << 10


def judged(watch, stream, *words):
    """The line and the note, whose status must fit them."""
    made = run([watch, *words], stream)
    line, note = made.stdout.decode(), made.stderr.decode().removesuffix("\n")
    if made.returncode != (not line.startswith("ok ")) or not line.endswith("\n"):
        fail("status", made.returncode, line, note)
    return line.removesuffix("\n"), note


def calls_of(stream):
    kinds = kinds_of(stream)
    return sum(kind in BEGINS for kind in kinds) - kinds.count(WITHDRAWN)


def must_be(name, found, wanted):
    if found != wanted:
        fail(name, f"{found} and not {wanted}")


def first_events(stream, many):
    return stream[:HEADER + EVENT * many]


def must_be_stuck_as_seen(name, explain, stream, number):
    """The history of the events up to this one is stuck there, and that of those before is explained."""
    must_be(name, verdict(explain, history_of(name, first_events(stream, number))), "explained")
    seen = history_of(name, first_events(stream, number + 1))
    found = verdict(explain, seen)
    if kinds_of(stream)[number] == WITHDRAWN:
        must_be(name, found.startswith("stuck "), True)
    else:
        must_be(name, found, f"stuck {entry_that_returns_at(seen, number)}")


def told_by(explain, history):
    """The thread, the call with its reply, and which replies were possible, that `stamped_explain` tells of a history that
    is stuck."""
    note = run([explain], json.dumps(history).encode()).stderr.decode()
    return re.match(r"stamped_explain: entry \d+ of thread (\d+): (.*?); (.*)\n", note).groups()


def must_tell(name, note, number, thread, told, possible):
    """The note tells of the call, and of the same replies, but of no stamps."""
    call, _, replies = note.partition("; ")
    must_be(name, call, f"stamped_watch: event {number}, lane {thread}: {told}")
    if re.search(r"answered \d+$", told):
        must_be(name, replies, "")
    else:
        must_be(name, sorted(re.split(": |, ", replies)), sorted(re.split(": |, ", possible)))


def without_stamps(told):
    return re.sub(r"\b\d+", "N", told)


def must_be_witness(name, explain, path, note):
    """The history in the file is stuck at the call that the note tells of, by the same thread and with the same reply,
    but for stamps. It is removed."""
    with open(path, encoding="utf-8") as file:
        history = json.load(file)
    os.remove(path)
    stuck = re.fullmatch(r"stuck (\d+)", verdict(explain, history))
    if not stuck or int(stuck[1]) >= len(history["entries"]):
        fail(name, note, "no witness", history)
    thread, told, _ = told_by(explain, history)
    lane, call = re.match(r"stamped_watch: event \d+, lane (\d+): (.*?)(?:; .*)?$", note).groups()
    must_be(name, (thread, without_stamps(told)), (lane, without_stamps(call)))
    return len(history["entries"])


def try_changed(watch, explain, name, stream, path, lacking):
    """Whether the stream with a reply changed is stuck. Where no witness of that was found, that is told, and the note is
    kept."""
    line, told = judged(watch, stream, "--witness", path)
    *lack, note = told.split("\n")
    history = history_of(name, stream)
    if line.startswith("ok "):
        must_be(name, verdict(explain, history), "explained")
        must_be(name, os.path.exists(path), False)
        return False
    stuck = re.fullmatch(r"stuck (\d+)", line)
    if not stuck:
        fail(name, line, note)
    number = int(stuck[1])
    must_be_stuck_as_seen(name, explain, stream, number)
    if WITHDRAWN not in kinds_of(stream):
        must_be(name, verdict(explain, history), f"stuck {entry_that_returns_at(history, number)}")
        must_tell(name, note, number, *told_by(explain, history))
    if os.path.exists(path):
        must_be(name, (kinds_of(stream)[number] == WITHDRAWN, lack), (False, []))
        must_be_witness(name, explain, path, note)
    elif kinds_of(stream)[number] == WITHDRAWN:
        must_be(name, lack, ["stamped_watch: no witness of a withdrawn call"])
    else:
        must_be(name, lack, ["stamped_watch: no witness was found"])
        lacking.append(note)
    return True


def try_random(watch, explain, path):
    chance, calls, stuck, lacking = random.Random(4), 0, 0, []
    for lanes, events in SIZES:
        for withdraws in (False, True):
            name = f"{lanes} lanes"
            stream = made_stream(chance, lanes, events, withdraws)
            must_be(name, judged(watch, stream), (f"ok {calls_of(stream)}", ""))
            calls += calls_of(stream)
            for _ in range(4):
                stuck += try_changed(watch, explain, name, with_wrong_reply(chance, stream), path, lacking)
    if 10 * len(lacking) > stuck:
        fail("witnesses", f"of {stuck} none for {len(lacking)}", *lacking)
    return calls, stuck


BROKEN = [
    (b"", "header cut"), (header()[:15], "header cut"), (b"stamp" + header()[5:], "header letters"),
    (header(form=3), "header form"), (header(layout=3), "header layout"), (header(readers=0), "header limits"),
    (header(readers=128), "header limits"), (header(versions=2**55 - 1), "header limits"),
    (header(2, versions=2**46 - 1), "header limits"),
    (header() + READ[:1], "0 cut"), (header() + READ + event(STAMP, 3, 257)[:15], "1 cut"),
    *[(header() + READ + event(kind, 3), "1 kind") for kind in (20, 31, 39, 47, 49, 255)],
    *[(header() + READ[:byte] + b"\1" + READ[byte + 1:], "0 zeros") for byte in range(2, 8)],
    (header() + event(1, 3, 5), "0 number"), (header() + READ + event(NO, 3, 1), "1 number"),
    (header() + READ + event(WITHDRAWN, 3, 1), "1 number"),
    (header() + event(1, 64), "0 lane"), (header() + READ + event(STAMP, 255), "1 lane"),
    (header() + READ + READ, "1 open"), (header() + READ + event(STAMP, 2, 257), "1 idle"),
    (header() + READ + event(STAMP, 3, 257) + event(WITHDRAWN, 3), "2 idle"),
]


def try_broken(watch):
    """Behind an event that is bad there may be anything; what is wrong before it is told."""
    wrong = event(2) + event(15, 1) + event(YES, 1)
    for broken, wanted in BROKEN:
        must_be("broken", judged(watch, broken), (f"bad {wanted}", ""))
        if not wanted.endswith("cut"):
            must_be("broken", judged(watch, broken + b"x" * 100), (f"bad {wanted}", ""))
        if not wanted.startswith("header"):
            line, _ = judged(watch, header() + wrong + broken[HEADER:])
            must_be("broken", line, "stuck 2")
    return len(BROKEN)


YES_LATER = event(14, 3) + event(YES, 3)
LATE = [
    # It changes nothing that anybody sees.
    (event(2) + SEEN_AGAIN * 9 + event(STAMP, 0, 384), 66, "ok 10"),
    # Somebody sees that it holds write mode, which it can't where it begins late.
    (event(2) + YES_LATER * 9 + event(STAMP, 0, 384), 66, "undecided 1"),
    (event(2) + YES_LATER * 9 + event(STAMP, 0, 384), 128, "ok 10"),
    # A reply is wrong before a call is open for long, or while one is that never ends.
    (event(4, 2) + event(STAMP, 2, 257) + event(2) + SEEN_AGAIN * 9, 66, "stuck 1"),
    (event(2) + SEEN_AGAIN * 9 + event(4, 2) + event(STAMP, 2, 257), 66, "undecided 20"),
    # The calls behind its late beginning saw the version before: so nothing is lost.
    (event(2) + SEEN_AGAIN * 9 + event(STAMP, 0, 384) + event(4, 2) + event(STAMP, 2, 256), 66, "stuck 21"),
]


def try_late(watch):
    """Calls that are open for longer than all but 64 of the events ahead begin late."""
    for events, ahead, told in LATE:
        note = f"stamped_watch: a call was open for nearly {ahead} events; a larger --ahead may tell more"
        line, found = judged(watch, header() + events, "--ahead", str(ahead))
        must_be("late", line, told)
        if told.startswith("undecided"):
            must_be("late", found, note)
    return len(LATE)


# A word that begins as an option and is none, an option without its word or with one that it doesn't take, an option
# that comes twice, and two files.
BAD = [
    "--other", "-", "-a", "--progress=1", "--help --help", "--progress --help", "--help run.events",
    "--most", "--progress --ahead", "run.events --witness",
    "--most +1", "--most 18446744073709551616", "--most --progress", "--ahead 4294967297", "--ahead run.events",
    "--witness -a", "--witness --progress", "--witness --help",
    "--progress --progress", "--progress run.events --progress", "--most 9 --most 9", "--most 9 --ahead 9 --most 8",
    "--ahead 9 --progress --ahead 9", "--witness a --most 9 --witness b",
    "run.events more", "run.events --progress run.events", "run.events --most 9 more --ahead 9",
]


def try_options(watch):
    late = header() + event(2) + event(4, 1) + event(STAMP, 1, 256) + event(STAMP, 0, 384)
    for ahead in ("64", "0"):
        must_be("--ahead", judged(watch, late, "--ahead", ahead), ("ok 2", ""))
    either = header() + event(1) + event(3, 1) + event(16, 2) + event(COUNT, 2, 1)
    must_be("--most", judged(watch, either, "--most", "2"), ("ok 3", ""))
    must_be("--most", judged(watch, either, "--most", "1"), ("undecided 3", ""))
    within = either + event(STAMP, 0, 258) + event(STAMP, 1, 258)
    must_be("--most", judged(watch, within, "--ahead", "99", "--most", "1"),
            ("undecided 3", "stamped_watch: no order explains the run; from which event on is undecided"))
    for words in BAD:
        made = run([watch, *words.split()], late)
        must_be(words, (made.returncode, made.stdout, made.stderr), (2, b"", b"stamped_watch: bad command line\n"))
    told = run([watch, "--help"])
    must_be("--help", (told.returncode, told.stdout[:14], told.stderr), (0, b"stamped_watch ", b""))


STUCK = [
    (event(2) + event(15, 1) + event(YES, 1), "2, lane 1: is_read_locked answered yes; possible: no"),
    (event(1) + event(STAMP, 0, 257) + event(16, 1) + event(COUNT, 1, 3),
     "3, lane 1: read_count answered count 3; possible: count 1"),
    (event(1) + event(3, 1) + event(16, 2) + event(COUNT, 2, 7) + event(STAMP, 0, 257) + event(STAMP, 1, 258),
     "3, lane 2: read_count answered count 7; possible: count 0, count 1, count 2"),
    (event(0) + event(STAMP, 0, 384) + event(6, 0, 384) + event(5, 1, 256) + event(YES, 1) + event(DONE),
     "4, lane 1: validate 256 answered yes; possible: no"),
    (event(0) + event(STAMP, 0, 384) + event(6, 1, 384) + event(MISMATCH, 1),
     "3, lane 1: unlock_write 384 answered mismatch; possible: done"),
    (event(4) + event(STAMP, 0, 257), "1, lane 0: optimistic answered 257"),
    (event(2) + event(STAMP, 0, 384) + event(1, 1) + event(15, 2) + event(NO, 2) + event(WITHDRAWN, 1) +
     event(12, 1) + event(NO, 1), "7, lane 1: try_unlock_write answered no; possible: yes"),
]


def try_stuck(watch):
    """What could have been answered is told, but for stamps."""
    for events, told in STUCK:
        number = told.partition(",")[0]
        must_be("stuck", judged(watch, header() + events), (f"stuck {number}", f"stamped_watch: event {told}"))
    return len(STUCK)


SHORT = [(header() + events, told) for events, told in STUCK]
# The judge has let go of the first events.
LONG = [
    (header() + SEEN * 4_000 + STUCK[3][0], "8004, lane 1: validate 256 answered yes; possible: no"),
    (header() + SEEN * 4_000 + STUCK[4][0], "8003, lane 1: unlock_write 384 answered mismatch; possible: done"),
]
# The first options, and whether the stream is in a file that is named last.
FORMS = [([], False), ([], True), (["--progress"], False), (["--progress"], True), (["--most", "99"], True)]
LACKS = [
    (LATE[-1][0], ["--ahead", "66"], "stuck 21", "no witness where a call began late",
     "event 21, lane 2: optimistic answered 256"),
    # Its effect was seen.
    (event(2) + event(14, 1) + event(YES, 1) + event(WITHDRAWN), [], "stuck 3", "no witness of a withdrawn call",
     "event 3, lane 0: write_lock was withdrawn"),
]
NOT_STUCK = [
    (SEEN, [], "ok 1"), (LATE[1][0], ["--ahead", "66"], "undecided 1"), (READ + READ, [], "bad 1 open"),
    (READ + event(STAMP, 3, 257)[:15], [], "bad 1 cut"),
]
OLD = "an old text\n"


def must_have_witness(watch, explain, path, told, stream, *words):
    """The stream is stuck as is told, and its witness, too. Counts the calls of that."""
    line, note = judged(watch, stream, *words)
    must_be("witness", (line, note), (f"stuck {told.partition(',')[0]}", f"stamped_watch: event {told}"))
    must_be(f"witness of {words}", os.path.exists(path), True)
    return must_be_witness("witness", explain, path, note)


def try_forms(watch, explain, path):
    """A witness is written whatever is asked for besides, in whatever order."""
    stream, told = SHORT[0]
    run_events = path + ".events"
    with open(run_events, "wb") as file:
        file.write(stream)
    for first, is_named in FORMS:
        given = (b"", *first, "--witness", path, run_events) if is_named else (stream, *first, "--witness", path)
        must_have_witness(watch, explain, path, told, *given)
    parts = ["--progress"], ["--most", "99"], ["--ahead", "99"], ["--witness", path], [run_events]
    for ordered in itertools.permutations(parts):
        must_have_witness(watch, explain, path, told, b"", *itertools.chain(*ordered))
    # None where the options are bad.
    made = run([watch, "--witness", path, "--progress", "--most"], stream)
    must_be("bad options", (made.returncode, os.path.exists(path)), (2, False))


def try_without_witness(watch, path):
    """Where no witness is written FILE stays: it isn't made, and an old text is there afterwards. If one was due it is
    told why there is none."""
    rows = [(*row, f"stamped_watch: {lack}\nstamped_watch: {note}") for *row, lack, note in LACKS]
    for events, words, line, *told in [*rows, *NOT_STUCK]:
        given = (header() + events, *words, "--witness", path)
        for old in (None, OLD):
            if old:
                with open(path, "w", encoding="utf-8") as file:
                    file.write(old)
            found, *note = judged(watch, *given)
            must_be("no witness", (found, note[:len(told)]), (line, told))
            must_be("no witness", os.path.exists(path), old is not None)
        with open(path, encoding="utf-8") as file:
            must_be("no witness", file.read(), OLD)
        os.remove(path)


def try_witnesses(watch, explain, path):
    """Where it can't be written the answer is the same."""
    for stream, told in SHORT:
        must_have_witness(watch, explain, path, told, stream, "--ahead", "99", "--witness", path, "--most", "99")
    for stream, told in LONG:
        calls = must_have_witness(watch, explain, path, told, stream, "--witness", path)
        must_be("another call in the witness", calls > 1, True)
    stream, told = SHORT[0]
    for unwritten in (os.path.join(path, "none"), "/dev/full"):
        must_be("unwritten", judged(watch, stream, "--witness", unwritten),
                ("stuck 2", f"stamped_watch: can't write the witness\nstamped_watch: event {told}"))
    try_forms(watch, explain, path)
    try_without_witness(watch, path)


def fed(command, pieces, **words):
    """The status, what the program wrote to standard output, and what to standard error."""
    with started(command, stdin=subprocess.PIPE, stdout=subprocess.PIPE, **words) as process:
        with contextlib.suppress(BrokenPipeError):
            for piece in pieces:
                process.stdin.write(piece)
            process.stdin.close()
        line, note = process.stdout.read(), process.stderr.read() if process.stderr else b""
        return process.wait(), line, note


def try_progress(watch):
    """A line at each 2^24 events, before something is found; none unless asked for. The answer is the same, also where
    standard error takes no line."""
    many = [SEEN * (1 << 18)] * 31 + [SEEN * ((1 << 18) - 2)]
    under_way = event(3, 5) + event(2, 7) + event(WITHDRAWN, 7) + event(4)
    rest = event(STAMP, 0, 256) + event(STAMP, 5, 257)
    told = b"stamped_watch: 8388608 calls, explained up to event 16777212, 2 open\n"
    pieces, answer = [header(), *many, under_way, rest], b"ok 8388608\n"
    must_be("--progress", fed([watch, "--progress"], pieces, stderr=subprocess.PIPE), (0, answer, told))
    must_be("no --progress", fed([watch], pieces, stderr=subprocess.PIPE), (0, answer, b""))
    with open("/dev/full", "wb") as full:
        must_be("no room", fed([watch, "--progress", "--most", "9"], pieces, stderr=full), (0, answer, b""))
    one_less = [header(), *many, under_way[:EVENT * 3]]
    must_be("before 2^24", fed([watch, "--progress"], one_less, stderr=subprocess.PIPE), (0, b"ok 8388607\n", b""))
    stuck = [header(), SEEN, event(4), event(STAMP, 0, 257), *many, SEEN * 9]
    must_be("stuck before", fed([watch, "--progress"], stuck, stderr=subprocess.PIPE),
            (1, b"stuck 3\n", b"stamped_watch: event 3, lane 0: optimistic answered 257\n"))


def try_files(watch):
    with tempfile.TemporaryDirectory() as room:
        path = os.path.join(room, "run.events")
        with open(path, "wb") as file:
            file.write(header() + SEEN)
        for words in ([path], ["--most", "1", path], ["--ahead", "1", "--most", "1", path]):
            must_be("a file", judged(watch, b"", *words), ("ok 1", ""))
        for path, told in ((room, b"read fault"), (os.path.join(room, "none"), b"can't open the file")):
            made = run([watch, path])
            must_be("no file", (made.returncode, made.stdout, made.stderr), (1, b"", b"stamped_watch: %b\n" % told))


def try_pieces(watch):
    """A slow writer, whose pieces are no whole events; the program ends though the writer doesn't."""
    stream = header() + SEEN * 40 + event(4) + event(STAMP, 0, 257) + SEEN
    with started([watch], stdin=subprocess.PIPE, stdout=subprocess.PIPE, stderr=subprocess.PIPE) as process:
        with contextlib.suppress(BrokenPipeError):
            for at in range(0, len(stream), 7):
                os.write(process.stdin.fileno(), stream[at:at + 7])
        line, note = process.stdout.read(), process.stderr.read()
        must_be("pieces", process.wait(), 1)
    must_be("pieces", (line, note), (b"stuck 81\n", b"stamped_watch: event 81, lane 0: optimistic answered 257\n"))


def try_long(watch):
    """Six million events."""
    many, each = 100, 30_000
    with started([watch], stdin=subprocess.PIPE, stdout=subprocess.PIPE) as process:
        process.stdin.write(header())
        for _ in range(many):
            process.stdin.write(SEEN * each)
        process.stdin.close()
        line = process.stdout.read()
        _, status, used = os.wait4(process.pid, 0)
        process.returncode = os.waitstatus_to_exitcode(status)
    must_be("long", (process.returncode, line), (0, b"ok %d\n" % (many * each)))
    if used.ru_maxrss > MOST_MEMORY:
        fail("long", f"{used.ru_maxrss} KiB")
    return 2 * many * each


def main():
    watch, explain = sys.argv[1:]
    with tempfile.TemporaryDirectory() as room:
        path = os.path.join(room, "witness.json")
        calls, stuck = try_random(watch, explain, path)
        try_witnesses(watch, explain, path)
    broken = try_broken(watch)
    try_options(watch)
    try_late(watch)
    told = try_stuck(watch)
    try_progress(watch)
    try_files(watch)
    try_pieces(watch)
    events = try_long(watch)
    print(f"watch: {2 * len(SIZES)} streams of {calls} calls explained, {stuck} with a wrong reply stuck, {broken} "
          f"broken ones told, one of {events} events in less than {MOST_MEMORY >> 10} MiB")


if __name__ == "__main__":
    main()
