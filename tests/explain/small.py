"""Long observed histories that are stuck, and the small ones that `--small` writes for them.

    small.py EXPLAIN STAMPED [CALLS [SEED]]

Run at the top of the repository; it wants cc. Runs of planted.c with 4 threads and at most CALLS calls (20,000 if
not said) with each planted bug, the same on each machine and all stuck; and runs of `stamped run` with as many calls of
a lock and a record, of which a reply near the end is changed. The same again where each call has a lane of its own, as
calls of many short-lived threads have. A small history has under 60 entries and is stuck at its last one: at the same
call, with the same reply and the same possible ones, but for the versions of stamps, of which each has as many less.
Where the call takes a stamp that a call before it was answered, so it does in the small history, one of its own thread
if one of this was; and it isn't answered 0 where it was answered a stamp. No other entry can be left out, and no two,
so that it is still stuck so, by a stamp of the past."""
import itertools
import json
import os
import random
import re
import subprocess
import sys
import tempfile

BUGS = ("upgrade", "version", "validate")
RUNS = 3
MOST_ENTRIES = 60
VERSION = 256
PATTERNS = [
    [["try_read"], ["validate", 1], ["unlock_read", 2]],
    [["try_write"], ["validate", 1], ["unlock_write", 2]],
    [["try_read"], ["to_write", 1], ["unlock", 1], ["unlock", 3]],
    [["optimistic"], ["to_read", 1], ["unlock", 1], ["read_count"]],
]


def output_of(words, text=b""):
    ran = subprocess.run(words, input=text, capture_output=True, timeout=3600)
    return ran.returncode, ran.stdout, ran.stderr.decode()


def calls_of(chance, thread, count):
    """Calls of the lock and of a record of one word."""
    calls = []
    while len(calls) < count:
        if chance.random() < 0.3:
            calls.append(chance.choice([["get"], ["put", [chance.randrange(9)]]]))
            continue
        for name, *before in chance.choice(PATTERNS):
            calls.append([name, *([thread, len(calls) - b] for b in before)])
    return calls


def run_of(stamped, chance, threads, calls):
    """An observed history of a right lock and record."""
    script = {"readers": 127, "versions": 100_000, "width": 1,
              "steps": [chance.randrange(threads) for _ in range(calls * 4)],
              "threads": [calls_of(chance, thread, calls // threads) for thread in range(threads)]}
    history = json.loads(output_of([stamped, "run"], json.dumps(script).encode())[1])
    for entry in history["entries"]:
        del entry["point"]
    return history


def broken(history, name, reply_of, longer=0):
    """The history with another reply of the last call of this name among the first nine tenths, which begins earlier by
    so many positions, then in a lane of its own."""
    entries = json.loads(json.dumps(history["entries"]))
    among = entries[: len(entries) * 9 // 10]
    wrong = next(entry for entry in reversed(among)
                 if entry["call"][0] == name and entry["reply"] not in (0, reply_of(entry["reply"])))
    wrong["reply"] = reply_of(wrong["reply"])
    if longer:
        wrong["first"], wrong["thread"] = max(0, wrong["first"] - longer), 63
    return json.dumps({**history, "entries": entries}).encode()


def with_old_stamp(history, name, issuer):
    """The history where the last call of this name that was answered no refusal, among the first nine tenths, takes the
    first stamp that a call of the other name was answered."""
    entries = json.loads(json.dumps(history["entries"]))
    old = min((entry for entry in entries if entry["call"][0] == issuer and entry["reply"] != 0),
              key=lambda entry: entry["last"])
    wrong = next(entry for entry in reversed(entries[: len(entries) * 9 // 10])
                 if entry["call"][0] == name and entry["reply"] not in (0, "no", "mismatch"))
    wrong["call"][1] = old["reply"]
    return json.dumps({**history, "entries": entries}).encode()


def answer_of(line):
    """What the line on standard error says of a call: what it answered, and what was possible."""
    answer, possible = re.fullmatch(r"stamped_explain: entry \d+ of thread (\d+: .* answered .*?); (.*)\n", line).groups()
    replies = re.findall(r"\[.*?\]|[^ ,][^,]*", possible.removeprefix("possible: "))
    return answer, set(replies)


def numbers_in(answer):
    return [int(number) for text in [answer[0], *answer[1]] for number in re.findall(r"\d+", text)]


def renumbered(text, versions):
    """The text of a call or a reply of the lock, with its stamps renumbered."""
    def number(found):
        stamp = int(found[0])
        less = versions * VERSION
        return str(stamp if stamp < VERSION else 0 if stamp - VERSION < less else stamp - less)
    return re.sub(r"(?<!count )\b\d+", number, text)


def are_alike(long, small):
    """Whether what is said of two calls is the same, with stamps renumbered."""
    spans = {a - b for a in numbers_in(long) for b in numbers_in(small)} | {0}
    return any((renumbered(long[0], versions), {renumbered(reply, versions) for reply in long[1]}) == small
               for versions in (span // VERSION for span in spans if span >= 0 and span % VERSION == 0))


def in_lanes(run, chance):
    """The run with each call in another lane, one of those that are free while it goes on."""
    history, busy = json.loads(run), {}
    for entry in sorted(history["entries"], key=lambda entry: entry["first"]):
        entry["thread"] = chance.choice([lane for lane in range(64) if busy.get(lane, -1) < entry["first"]])
        busy[entry["thread"]] = entry.get("last", sys.maxsize)
    return json.dumps(history).encode()


def last_version(entries):
    """The version of the last write acquisition."""
    replies = [entry.get("reply") for entry in entries]
    return max((reply // VERSION for reply in replies if type(reply) is int and reply % VERSION == VERSION // 2),
               default=0)


def version_of(call):
    """The version of the stamp that a call takes, if it takes one."""
    stamp = call[1] if len(call) > 1 and type(call[1]) is int else 0
    return max(0, stamp // VERSION - (stamp % VERSION != VERSION // 2))


def issuers(entries, entry):
    """The threads of the calls that had returned before this one, and were answered the stamp that it takes."""
    stamp = entry["call"][1] if len(entry["call"]) > 1 else 0
    if type(stamp) is not int or stamp == 0:
        return set()
    return {other["thread"] for other in entries
            if type(other.get("reply")) is int and other["reply"] == stamp and other["last"] < entry["first"]}


def shows_issuer(entries, entry, shown, last):
    """Whether the stamp of the last call is issued among those shown, if that of the entry is: to its own thread, if it
    was so."""
    known, seen = issuers(entries, entry), issuers(shown, last)
    return last["thread"] in seen if entry["thread"] in known else bool(seen) or not known


def must_show_stamps(run, told, small, name):
    """The stamp that the call takes is issued in the small history, if it is in the run, and a stamp that it was
    answered isn't 0."""
    entries, small_entries = json.loads(run)["entries"], json.loads(small)["entries"]
    stuck, last = entries[int(re.search(r"entry (\d+)", told)[1])], small_entries[-1]
    if not shows_issuer(entries, stuck, small_entries, last):
        sys.exit(f"{name}: the call that issued the stamp of {stuck['call']} is left out: {small[:2000]}")
    if last["reply"] == 0 and stuck["reply"] != 0:
        sys.exit(f"{name}: the answer {stuck['reply']} is left out: {small[:2000]}")


def version_wanted(entries):
    """The version to which a small history has to come: that of the stamp that its last call takes; where this was issued,
    and the call is answered a stamp of a later version, that one, or the next where it is over 8 later."""
    last = entries[-1]
    asked, reply = version_of(last["call"]), last["reply"]
    if not issuers(entries, last) or type(reply) is not int or reply < VERSION:
        return asked
    later = max(0, reply // VERSION - 1 - asked)
    return asked + (later if later <= 8 else 1)


def is_still_stuck(explain, history, left_out, told):
    """Whether the last entry is stuck as before without these, by a stamp as old, issued as before."""
    entries = [entry for place, entry in enumerate(history["entries"]) if place not in left_out]
    if not shows_issuer(history["entries"], entries[-1], entries, entries[-1]):
        return False
    if last_version(entries[:-1]) < min(version_wanted(history["entries"]), last_version(history["entries"][:-1])):
        return False
    status, line, note = output_of([explain], json.dumps({**history, "entries": entries}).encode())
    return line == b"stuck %d\n" % (len(entries) - 1) and answer_of(note) == answer_of(told)


def must_need_all(explain, small, told, name):
    history = json.loads(small)
    others = range(len(history["entries"]) - 1)
    for left_out in [*itertools.combinations(others, 1), *itertools.combinations(others, 2)]:
        if is_still_stuck(explain, history, left_out, told):
            sys.exit(f"{name}: entries {left_out} of {len(history['entries'])} aren't needed: {small[:4000]}")


def made_small(explain, run, name):
    """What is said of the small history of a run; nothing where the run is explained."""
    status, small, told = output_of([explain, "--judge", "--small"], run)
    if small.startswith(b"ok "):
        return None
    entries = json.loads(small)["entries"]
    _, line, told_again = output_of([explain], small)
    if status != 1 or line != b"stuck %d\n" % (len(entries) - 1) or len(entries) >= MOST_ENTRIES:
        sys.exit(f"{name}: status {status}, {len(entries)} entries, {line}: {small[:2000]}")
    if not are_alike(answer_of(told), answer_of(told_again)):
        sys.exit(f"{name}: {told} and {told_again}")
    must_show_stamps(run, told, small, name)
    must_need_all(explain, small, told_again, name)
    return f"{len(json.loads(run)['entries'])} calls become {len(entries)}"


def planted_runs(calls, seed):
    with tempfile.TemporaryDirectory() as room:
        planted = os.path.join(room, "planted")
        subprocess.run(["cc", "-O2", "-pthread", "-I", "bench/common", "-o", planted, "tests/explain/planted.c"],
                       check=True)
        return {bug: [output_of([planted, bug, "4", str(calls), str(seed + 100 * run)])[1] for run in range(RUNS)]
                for bug in BUGS}


def changed_runs(stamped, calls, seed):
    history = run_of(stamped, random.Random(seed), 4, calls)
    return {
        "another stamp": [broken(history, "try_read", lambda stamp: stamp + 64)],
        "an older stamp": [broken(history, "optimistic", lambda stamp: stamp - VERSION)],
        "a failed release": [broken(history, "unlock_write", lambda _: "mismatch")],
        "a wrong validation": [broken(history, "validate", lambda _: "no")],
        "an old stamp is valid": [with_old_stamp(history, "validate", "optimistic")],
        "an old stamp is released": [with_old_stamp(history, "unlock_read", "try_read")],
        "an old stamp acquires": [with_old_stamp(history, "to_write", "optimistic")],
        "a wrong count": [broken(history, "read_count", lambda _: {"count": 9})],
        "a wrong word": [broken(history, "get", lambda words: [words[0] + 1])],
        "a wrong word of a long get": [broken(history, "get", lambda words: [words[0] + 9], longer)
                                       for longer in (20, 200, 2000)],
    }


def main():
    explain, stamped = sys.argv[1:3]
    calls = int(sys.argv[3]) if len(sys.argv) > 3 else 20_000
    seed = int(sys.argv[4]) if len(sys.argv) > 4 else 1
    chance = random.Random(seed)
    for name, runs in {**planted_runs(calls, seed), **changed_runs(stamped, calls, seed)}.items():
        runs = [*runs, *(in_lanes(run, chance) for run in runs)]
        made = [made_small(explain, run, name) for run in runs]
        if not any(made) or (name in BUGS and not all(made)):
            sys.exit(f"{name}: runs that are not stuck: {made.count(None)} of {len(made)}")
        print(f"small: {name}: {'; '.join(filter(None, made))}")


main()
