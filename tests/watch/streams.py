"""What the tests of streams share: the converters as programs, and the judge."""
import contextlib
import json
import struct
import subprocess
import sys
import threading

TO_HISTORY, TO_STREAM = ([sys.executable, "-B", f"recorders/{name}.py"] for name in
                         ("stream_to_history", "history_to_stream"))
HEADER, EVENT = 16, 16
# Seconds after which a process is taken to hang: a hundred times what any of these takes beside other work.
HANGING = 3600
BEGINS, STAMP, YES, NO, DONE, MISMATCH, COUNT, WITHDRAWN = range(17), 32, 33, 34, 35, 36, 37, 48
# Of a stream with a record: its header, its kinds, and how many contents stand behind an event.
WIDE_HEADER = 24
GET, PUT, PUT_IF, CONTENT = 17, 18, 19, 38
CONTENTS = {PUT: 1, PUT_IF: 2, CONTENT: 1}


def fail(name, *told):
    sys.exit(f"{name}: {', '.join(str(it)[:300] for it in told)}")


def run(words, text=b""):
    return subprocess.run(words, input=text, capture_output=True, timeout=HANGING)


@contextlib.contextmanager
def started(words, **files):
    """A process, which ends with the block, and is killed if it hangs."""
    with subprocess.Popen(words, **files) as process:
        timer = threading.Timer(HANGING, process.kill)
        timer.start()
        try:
            yield process
            process.wait()
        finally:
            process.kill()
            timer.cancel()


def history_of(name, stream):
    made = run(TO_HISTORY, stream)
    if made.returncode != 0:
        fail(name, made.stderr)
    return json.loads(made.stdout)


def stream_of(name, history):
    made = run(TO_STREAM, json.dumps(history).encode())
    if made.returncode != 0:
        fail(name, made.stderr)
    return made.stdout


def verdict(explain, history):
    """`explained`, or what the program printed."""
    try:
        found = run([explain], json.dumps(history).encode())
    except subprocess.TimeoutExpired:
        return f"no answer on {len(history['entries'])} entries"
    if found.returncode == 0 and found.stdout.startswith(b'{"entries":'):
        return "explained"
    return (found.stdout or found.stderr).decode().rstrip("\n")


def must_be_explained(name, explain, stream):
    """The stream's history, which must be explained."""
    history = history_of(name, stream)
    found = verdict(explain, history)
    if found != "explained":
        fail(name, found)
    return history


def must_be_judged(name, watch, stream, wanted):
    """`stamped_watch` tells this of the stream. Returns what it adds."""
    made = run([watch], stream)
    if made.stdout.decode() != wanted + "\n" or made.returncode != (not wanted.startswith("ok ")):
        fail(name, f"{made.stdout} and not {wanted}", made.returncode, made.stderr)
    return made.stderr.decode()


def stuck_call(name, explain, watch, stream):
    """What both programs tell of the call at which the stream is stuck; of the second one, if there is one."""
    history = history_of(name, stream)
    found = run([explain], json.dumps(history).encode())
    word, _, number = found.stdout.decode().partition(" ")
    if word != "stuck":
        fail(name, "not stuck", found.stdout, found.stderr)
    entry, note = history["entries"][int(number)], found.stderr.decode().partition(" of thread ")[2]
    if watch:
        told = must_be_judged(name, watch, stream, f"stuck {entry['last']}").partition(", lane ")[2]
        if told.partition(";")[0].rstrip() != note.partition(";")[0].rstrip():
            fail(name, told, note)
    return note.partition(": ")[2]


def kinds_of(stream):
    return [it[0] for it in wide_events_of(stream)] if stream[4:5] == b"\2" else list(stream[HEADER::EVENT])


def wide_events_of(stream):
    """The events of a stream with a record: kind, lane, number, and the words behind."""
    at, width = WIDE_HEADER, stream[HEADER]
    while at < len(stream):
        kind, lane, number = event_at(stream[at - HEADER:at + EVENT], 0)
        many = width * CONTENTS.get(kind, 0)
        yield kind, lane, number, struct.unpack_from(f"<{many}Q", stream, at + EVENT)
        at += EVENT + 8 * many


def event_at(stream, number):
    at = HEADER + EVENT * number
    return stream[at], stream[at + 1], int.from_bytes(stream[at + 8:at + EVENT], "little")


def with_event(stream, number, kind, lane, value):
    """The stream with another event at this place."""
    at = HEADER + EVENT * number
    event = bytes([kind, lane, 0, 0, 0, 0, 0, 0]) + value.to_bytes(8, "little")
    return stream[:at] + event + stream[at + EVENT:]


def entry_that_returns_at(history, position):
    return next(i for i, entry in enumerate(history["entries"]) if entry.get("last") == position)
