"""Streams with data judged by `stamped_watch`.

    data.py WATCH EXPLAIN

Run at the top of the repository. Small streams of a lock and its record are explained, or stuck at a call whose content
or reply no order allows: the same whatever the lock's calls beside are. A torn read that was not validated is such a
one. Each that is stuck has a witness, judged by `stamped_explain`. Headers and events that are broken are told as what
they are, and of each prefix of a stream its calls, or where it is cut. A stream without data has no event of a record.
Contents have up to 16 words, and a stream may have many."""
import os
import subprocess
import sys
import tempfile

from round_trips import event, header
from streams import DONE, NO, STAMP, YES, started
from watch import fed, judged, must_be, must_be_witness

GET, PUT, PUT_IF, CONTENT = 17, 18, 19, 38
WRITE, RELEASED = event(2) + event(STAMP, 0, 384), event(6, 0, 384) + event(DONE)


def words(*numbers):
    return b"".join(number.to_bytes(8, "little") for number in numbers)


def data_header(width, behind=bytes(7)):
    return header(form=2) + bytes([width]) + behind


def get(lane=0):
    return event(GET, lane)


def content(lane, *numbers):
    return event(CONTENT, lane) + words(*numbers)


def put(lane, *numbers):
    return event(PUT, lane) + words(*numbers)


def done(lane=0):
    return event(DONE, lane)


def put_if(lane, expected, numbers):
    return event(PUT_IF, lane) + words(*expected) + words(*numbers)


EXPLAINED = [
    (b"", 0), (get() + content(0, 0, 0), 1), (put(0, 1, 2) + done() + get() + content(0, 1, 2), 2),
    # The get overlaps the put, and has the words before it or behind it; so have those of two lanes.
    (put(0, 1, 2) + get(1) + content(1, 0, 0) + done(), 2), (put(0, 1, 2) + get(1) + content(1, 1, 2) + done(), 2),
    (put(0, 1, 2) + put(1, 3, 4) + get(2) + content(2, 3, 4) + get(3) + content(3, 1, 2) + done() + done(1), 4),
    # A put that was withdrawn took no effect; one that is under way may have taken it.
    (put(0, 1, 2) + event(48) + get() + content(0, 0, 0), 1), (put(0, 1, 2) + get(1) + content(1, 1, 2), 2),
    (put_if(0, (0, 0), (5, 6)) + event(YES) + get() + content(0, 5, 6), 2),
    (put_if(0, (1, 0), (5, 6)) + event(NO) + get() + content(0, 0, 0), 2),
    # The lock and its record side by side.
    (WRITE + put(0, 1, 2) + done() + RELEASED + event(4, 1) + event(STAMP, 1, 512) + get(1) + content(1, 1, 2) +
     event(5, 1, 512) + event(YES, 1), 6),
    # A number above all others, and the same words in another order.
    (put(0, 2**64 - 1, 0) + done() + put(0, 0, 2**64 - 1) + done() + get() + content(0, 0, 2**64 - 1), 3),
]
STUCK = [
    (get() + content(0, 0, 1), "1, lane 0: get answered [0, 1]"),
    (put(0, 1, 2) + done() + get(3) + content(3, 0, 0), "3, lane 3: get answered [0, 0]"),
    # Two gets one after the other see the puts in different orders.
    (put(0, 1, 2) + get(1) + content(1, 1, 2) + get(1) + content(1, 0, 0), "4, lane 1: get answered [0, 0]"),
    # A torn read, which was not validated.
    (WRITE + put(0, 1, 1) + get(1) + content(1, 1, 0), "4, lane 1: get answered [1, 0]"),
    # It was, and should not have been.
    (event(4, 1) + event(STAMP, 1, 256) + WRITE + put(0, 1, 1) + done() + get(1) + content(1, 1, 1) + event(5, 1, 256) +
     event(YES, 1), "9, lane 1: validate 256 answered yes; possible: no"),
    (put_if(0, (0, 0), (5, 6)) + event(NO), "1, lane 0: put_if [0, 0] [5, 6] answered no; possible: yes"),
    (put_if(0, (1, 0), (5, 6)) + event(YES), "1, lane 0: put_if [1, 0] [5, 6] answered yes; possible: no"),
    (put_if(0, (0, 0), (5, 6)) + event(YES) + put_if(1, (0, 0), (7, 7)) + event(YES, 1),
     "3, lane 1: put_if [0, 0] [7, 7] answered yes; possible: no"),
    (event(2) + event(15, 1) + event(YES, 1), "2, lane 1: is_read_locked answered yes; possible: no"),
]
BROKEN = [
    (header(form=2), "header cut"), (data_header(2)[:23], "header cut"), (data_header(0), "header width"),
    (data_header(17), "header width"), (data_header(255), "header width"),
    *[(data_header(2, bytes(byte) + b"\1" + bytes(6 - byte)), "header width") for byte in range(7)],
    (header(form=3) + bytes(8), "header form"), (header(2, versions=2**46 - 1, form=2), "header limits"),
    *[(data_header(2) + event(kind), "0 kind") for kind in (20, 31, 39, 47, 49)],
    *[(header() + event(kind), "0 kind") for kind in (GET, PUT, PUT_IF, CONTENT)],
    *[(data_header(2) + event(kind, 0, 1), "0 number") for kind in (GET, PUT, PUT_IF, CONTENT)],
    *[(data_header(2) + it[:byte] + b"\1" + it[byte + 1:], "0 zeros") for it in (put(0, 1, 2), get())
      for byte in range(2, 8)],
    (data_header(2) + put(0, 1, 2)[:31], "0 cut"), (data_header(2) + put(0, 1, 2)[:16], "0 cut"),
    (data_header(2) + put_if(0, (0, 0), (5, 6))[:47], "0 cut"),
    (data_header(2) + get() + content(0, 0, 0)[:17], "1 cut"),
    (data_header(2) + put(64, 1, 2), "0 lane"), (data_header(2) + put(3, 1, 2) + put(3, 1, 2), "1 open"),
    (data_header(2) + put(3, 1, 2) + event(1, 3), "1 open"), (data_header(2) + content(3, 0, 0), "0 idle"),
]


def try_tables(watch):
    for events, calls in EXPLAINED:
        must_be("explained", judged(watch, data_header(2) + events), (f"ok {calls}", ""))
    for events, told in STUCK:
        found = judged(watch, data_header(2) + events)
        must_be("stuck", found, (f"stuck {told.partition(',')[0]}", f"stamped_watch: event {told}"))
    for broken, wanted in BROKEN:
        must_be("broken", judged(watch, broken), (f"bad {wanted}", ""))
        if not wanted.endswith("cut"):
            must_be("broken", judged(watch, broken + b"x" * 300), (f"bad {wanted}", ""))


def try_prefixes(watch):
    """Of each prefix of a stream."""
    events = [put_if(0, (0, 0), (5, 6)), get(1), event(YES), content(1, 5, 6), event(1, 2), event(STAMP, 2, 257)]
    stream, ends = data_header(2) + b"".join(events), {24: 0}
    for number, one in enumerate(events, 1):
        ends[max(ends) + len(one)] = number
    for length in range(len(stream) + 1):
        before = max([number for end, number in ends.items() if end <= length], default=None)
        if before is None:
            wanted = "bad header cut"
        elif length in ends:
            wanted = f"ok {(0, 1, 2, 2, 2, 3, 3)[before]}"
        else:
            wanted = f"bad {before} cut"
        must_be(f"a prefix of {length} bytes", judged(watch, stream[:length]), (wanted, ""))


def try_widths(watch):
    for width in range(1, 17):
        one, other = range(1, width + 1), range(2, width + 2)
        events = put(0, *one) + done() + put_if(1, one, other) + event(YES, 1) + get(2)
        must_be(f"width {width}", judged(watch, data_header(width) + events + content(2, *other)), ("ok 3", ""))
        line, note = judged(watch, data_header(width) + events + content(2, *one))
        must_be(f"width {width}", (line, note), ("stuck 5", f"stamped_watch: event 5, lane 2: get answered {[*one]}"))


def try_witnesses(watch, explain, path):
    """Each has one, which is stuck at the same call; also where the judge keeps the last events alone."""
    long = (put(5, 7, 7) + done(5) + put(5, 0, 0) + done(5)) * 200
    for before in (b"", long):
        for events, told in STUCK:
            number, call = told.split(",", 1)
            line, note = judged(watch, data_header(2) + before + events, "--witness", path)
            number = int(number) + (800 if before else 0)
            must_be("witness", (line, note), (f"stuck {number}", f"stamped_watch: event {number},{call}"))
            must_be(f"witness of {told}", os.path.exists(path), True)
            must_be_witness(f"witness of {told}", explain, path, note)


def try_pieces(watch):
    """Pieces that are no whole events."""
    stream = data_header(3) + (put(0, 7, 8, 9) + done() + get() + content(0, 7, 8, 9)) * 40 + get() + content(0, 0, 0, 1)
    for many in (1, 7, 24, 41):
        pieces = [stream[at:at + many] for at in range(0, len(stream), many)]
        with started([watch], stdin=subprocess.PIPE, stdout=subprocess.PIPE, stderr=subprocess.PIPE) as process:
            for piece in pieces:
                os.write(process.stdin.fileno(), piece)
            process.stdin.close()
            line, note = process.stdout.read(), process.stderr.read()
        must_be("pieces", (line, note),
                (b"stuck 161\n", b"stamped_watch: event 161, lane 0: get answered [0, 0, 1]\n"))


def try_many(watch):
    """100,000 contents, all different."""
    many = 100_000
    pieces = [data_header(2), *[put(0, n, n + 1) + done() + get(1) + content(1, n, n + 1) for n in range(1, many + 1)]]
    must_be("many contents", fed([watch], pieces), (0, b"ok %d\n" % (2 * many), b""))
    return 4 * many


def main():
    watch, explain = sys.argv[1:]
    try_tables(watch)
    try_prefixes(watch)
    try_widths(watch)
    with tempfile.TemporaryDirectory() as room:
        try_witnesses(watch, explain, os.path.join(room, "witness.json"))
    try_pieces(watch)
    events = try_many(watch)
    print(f"data: {len(EXPLAINED)} streams explained, {len(STUCK)} stuck, {len(BROKEN)} broken, one of {events} events")


if __name__ == "__main__":
    main()
