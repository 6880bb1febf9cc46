"""Small observed histories, judged by the program and by trying all orders.

    brute_force.py EXPLAIN STAMPED [COUNT [SEED]]

Run at the top of the repository. Each history is made by threads that call a lock and a record at random,
so it is right; half of them are then changed in a reply, a position, a thread, or by what is under way.
The verdict is the same: a history that can't be observed so (the first entry that is over before it
began, or overlaps one of its thread that is listed before it), the first return at which no order explains
it, or a recorded history, which is of this one and which `stamped check` accepts. Where one is stuck, the line on
standard error tells of that entry just the replies with which an order explains what was known then. With `--judge`
and `--told` it is the same but for one that is explained: that is `ok N`, and its calls are counted here too. The
model of the lock is the call table in python (bench/common)."""
import json
import random
import re
import subprocess
import sys
from dataclasses import dataclass

sys.path.insert(0, "bench/common")
import call_table  # noqa: E402 (a file of bench/common)

BARE = [name for name in call_table.TABLE if name.startswith(("try_", "is_"))] + [
    "write_lock", "read_lock", "optimistic", "read_count"]
STAMPED = [name for name in call_table.TABLE if name not in BARE]
ATTEMPTS, CONVERSIONS = ("try_write", "try_read", "optimistic"), ("to_write", "to_read", "to_optimistic")
MOST = 1_000_000


@dataclass(frozen=True)
class Model:
    """A lock of these limits, and a record of this width that it guards, if that is over 0."""

    limits: tuple
    width: int

    def start(self):
        return call_table.VERSION, (0,) * self.width

    def step(self, state, call):
        """The state after a call, and its reply; none where it waits."""
        word, words = state
        name = call[0]
        if name == "get":
            return state, list(words)
        if name == "put":
            return (word, tuple(call[1])), "done"
        if name == "put_if":
            return ((word, tuple(call[2])), "yes") if words == tuple(call[1]) else (state, "no")
        decision = call_table.TABLE[name](self.limits, word, call[1] if len(call) > 1 else 0)
        if decision is None:
            return None
        new, reply = decision
        return (word if new is None else new, words), reply


def has_returned(entry):
    return "last" in entry


def comes_before(one, other):
    return has_returned(one) and one["last"] < other["first"]


def fault_of(entries):
    """The first entry that can't have been seen beside those before it, and why."""
    for i, entry in enumerate(entries):
        if has_returned(entry) and entry["last"] < entry["first"]:
            return f"bad {i} interval"
        for other in entries[:i]:
            apart = comes_before(entry, other) or comes_before(other, entry)
            if entry["thread"] == other["thread"] and not apart:
                return f"bad {i} overlap"
    return None


def is_explained(model, entries):
    """Whether some order of the returned calls and of some under way is legal; all are tried."""
    dead = set()

    def goes_on(taken, state):
        left = [i for i in range(len(entries)) if not taken >> i & 1]
        if all(not has_returned(entries[i]) for i in left):
            return True
        if (taken, state) in dead:
            return False
        for i in left:
            entry = entries[i]
            if any(comes_before(entries[j], entry) for j in left):
                continue
            after = model.step(state, entry["call"])
            if after is None or has_returned(entry) and after[1] != entry["reply"]:
                continue
            if goes_on(taken | 1 << i, after[0]):
                return True
        dead.add((taken, state))
        return False

    return goes_on(0, model.start())


def stuck_at(model, entries):
    """The first return at which the history is no longer explained."""
    returns = sorted((entry["last"], i) for i, entry in enumerate(entries) if has_returned(entry))
    for n in range(len(returns)):
        known = {i for _, i in returns[: n + 1]}
        cut = [entry if i in known else {key: entry[key] for key in ("call", "first", "thread")}
               for i, entry in enumerate(entries)]
        if not is_explained(model, cut):
            return returns[n][1]
    return None


def known_at(entries, i):
    """What is known when the entry has returned: what returned before, and at its position was listed before."""
    end = entries[i]["last"], i
    return [entry if has_returned(entry) and (entry["last"], j) <= end
            else {key: entry[key] for key in ("call", "first", "thread")}
            for j, entry in enumerate(entries) if entry["first"] <= end[0]]


def possible_replies(model, entries, i):
    """The replies with which an order explains what is known when the entry has returned. All orders are
    tried of the calls that take effect before it; each state gives one reply, or none."""
    known = known_at(entries, i)
    asked = next(j for j, entry in enumerate(known) if entry is entries[i])
    given, seen = [], set()

    def goes_on(taken, state):
        if (taken, state) in seen:
            return
        seen.add((taken, state))
        for j, entry in enumerate(known):
            if taken >> j & 1 or any(comes_before(known[k], entry) for k in range(len(known)) if not taken >> k & 1):
                continue
            after = model.step(state, entry["call"])
            if after is None:
                continue
            if j == asked:
                given.append(after[1])
            elif not has_returned(entry) or after[1] == entry["reply"]:
                goes_on(taken | 1 << j, after[0])

    goes_on(0, model.start())
    answered = [(json.dumps(reply), [{**entry, "reply": reply} if j == asked else entry
                                     for j, entry in enumerate(known)]) for reply in given]
    return {reply for reply, entries_then in answered if is_explained(model, entries_then)}


def in_words(value):
    """A reply, or a call with what it takes, as the line has it."""
    if isinstance(value, dict):
        return f"count {value['count']}"
    return value if isinstance(value, str) else json.dumps(value)


def is_noted(model, entries, i, line):
    """The line tells what the entry answered, and just its possible replies, each once."""
    entry, possible = entries[i], possible_replies(model, entries, i)
    call = " ".join(in_words(part) for part in entry["call"])
    start = f"stamped_explain: entry {i} of thread {entry['thread']}: {call} answered {in_words(entry['reply'])}; "
    if not possible:
        return line == start + "no reply was possible, it would have waited\n"
    start += "possible: "
    if not (line.startswith(start) and line.endswith("\n")):
        return False
    told = re.split(r", (?![^\[]*\])", line[len(start):-1])
    return sorted(told) == sorted(in_words(json.loads(reply)) for reply in possible)


def random_call(chance, model, stamps):
    draw = chance.random()
    if model.width and draw < 0.4:
        words = [[chance.randrange(2) for _ in range(model.width)] for _ in range(2)]
        return chance.choice([["get"], ["get"], ["put", words[0]], ["put_if", *words]])
    if draw < 0.7:
        return [chance.choice(BARE)]
    known = chance.choice(stamps) if stamps and chance.random() < 0.9 else chance.randrange(0, 1200)
    return [chance.choice(STAMPED), known]


def made(chance, model):
    """What threads observe of their calls: each begins, takes effect and returns at random moments."""
    threads, most, stamps, state = chance.randint(1, 4), chance.randint(0, 8), [], model.start()
    going, entries, moment = {}, [], 0
    while len(entries) < most and moment < 80:
        moment += chance.randint(0, 2)
        thread = chance.randrange(threads)
        entry = going.get(thread)
        if entry is None:
            entries.append({"call": random_call(chance, model, stamps), "first": moment, "thread": thread})
            going[thread] = entries[-1]
        elif "reply" not in entry:
            after = model.step(state, entry["call"])
            if after is not None:
                state, entry["reply"] = after
                if isinstance(entry["reply"], int):
                    stamps.append(entry["reply"])
        elif chance.random() < 0.6:
            entry["last"] = moment
            del going[thread]
            moment += 1
    for entry in going.values():
        entry.pop("reply", None)
    chance.shuffle(entries)
    return entries


def change(chance, entries):
    """One thing is told otherwise."""
    entry = chance.choice(entries)
    replies = [other["reply"] for other in entries if has_returned(other)] + [0, 384, 257, "yes", "no", "mismatch"]
    kind = chance.choice([0, 0, 0, 0, 1, 2, 2, 3, 3, 4])
    if kind == 0 and has_returned(entry):
        entry["reply"] = chance.choice(replies)
    elif kind == 1 and has_returned(entry):
        del entry["reply"], entry["last"]
    elif kind == 2 and has_returned(entry):
        entry["last"] = max(0, entry["last"] + chance.randint(-6, 3))
    elif kind == 3:
        entry["first"] = max(0, entry["first"] + chance.randint(-3, 6))
    else:
        entry["thread"] = chance.randrange(5)


def output_of(words, text):
    run = subprocess.run(words, input=text.encode(), capture_output=True, timeout=3600)
    return run.returncode, run.stdout.decode(), run.stderr.decode()


def is_of(found, entries):
    """The recorded history has the returned calls, some under way, and nothing else."""
    left = [dict(entry) for entry in entries]
    for made_entry in found["entries"]:
        for entry in left:
            if made_entry["first"] != 64 * entry["first"] or any(
                    made_entry[key] != entry[key] for key in ("call", "thread")):
                continue
            if has_returned(entry) and (made_entry["last"], made_entry["reply"]) != (
                    64 * entry["last"] + 63, entry["reply"]):
                continue
            left.remove(entry)
            break
        else:
            return False
    return not any(has_returned(entry) for entry in left)


def tried_line(found):
    """What is told of the calls of a recorded history. Two of them overlap if neither ended before the other began."""

    def failed(names, reply):
        return sum(entry["call"][0] in names and entry["reply"] == reply for entry in found)

    met = sum(any(other is not entry and other["first"] <= entry["last"] and entry["first"] <= other["last"]
                  for other in found) for entry in found)
    return (f"stamped_explain: {met} of {len(found)} calls overlapped another; failed: attempts {failed(ATTEMPTS, 0)}, "
            f"validations {failed(['validate'], 'no')}, conversions {failed(CONVERSIONS, 0)}\n")


def is_judged_so(explain, text, answer):
    """What is judged in the same process is answered alike, but for a history that is explained."""
    status, line, note = answer
    if status == 0:
        found = json.loads(line)["entries"]
        line, note = f"ok {len(found)}\n", tried_line(found)
    return output_of([explain, "--most", str(MOST), "--judge", "--told"], text) == (status, line, note)


def judge(explain, stamped, model, entries):
    """Compares the verdicts; returns which it was."""
    text = json.dumps({"entries": entries, "format": 1, "readers": model.limits[0],
                       "versions": model.limits[1], "width": model.width})
    status, line, note = output_of([explain, "--most", str(MOST)], text)
    fault = fault_of(entries)
    if fault is not None:
        right, kind = (status, line) == (1, fault + "\n"), fault.split()[2]
    elif is_explained(model, entries):
        kind = "explained"
        right = status == 0 and is_of(json.loads(line), entries)
        right = right and output_of([stamped, "check"], line)[:2] == (0, f"ok {len(json.loads(line)['entries'])}\n")
    else:
        kind, at = "stuck", stuck_at(model, entries)
        right = (status, line) == (1, f"stuck {at}\n") and is_noted(model, entries, at, note)
    if not right or (kind != "stuck" and note) or not is_judged_so(explain, text, (status, line, note)):
        sys.exit(f"{kind}, and not {line!r} with status {status} and {note!r}, of {text}")
    return kind


def entry_of(thread, first, last, reply, *call):
    return {"call": list(call), "first": first, "last": last, "reply": reply, "thread": thread}


# Histories that are stuck at their first entry: what it answered is wrong, and so many replies are possible.
WRONG = {
    "a get beside two puts": (3, [entry_of(0, 1, 9, [7], "get"), entry_of(1, 2, 5, "done", "put", [1]),
                                  entry_of(2, 3, 6, "done", "put", [2])]),
    "a get between two puts": (2, [entry_of(0, 6, 9, [7], "get"), entry_of(1, 2, 5, "done", "put", [1]),
                                   entry_of(2, 3, 6, "done", "put", [2])]),
    "an upgrade beside a reader": (2, [entry_of(0, 2, 9, 257, "to_write", 257), entry_of(0, 0, 1, 257, "try_read"),
                                       entry_of(1, 3, 4, 258, "try_read"), entry_of(1, 5, 6, "done", "unlock", 258)]),
    "an optimistic stamp": (3, [entry_of(0, 1, 9, 1, "optimistic"), entry_of(1, 2, 3, 384, "try_write"),
                                entry_of(1, 4, 5, "done", "unlock", 384)]),
    "a call that would have waited": (0, [entry_of(0, 3, 9, 257, "read_lock"), entry_of(1, 0, 1, 384, "try_write")]),
    "a call beside one under way": (2, [entry_of(0, 3, 9, 896, "try_write"), entry_of(1, 0, 1, 384, "try_write"),
                                        {"call": ["unlock", 384], "first": 2, "thread": 1}]),
}


def judge_wrong(explain, stamped):
    """These histories, whose possible replies are counted by hand too."""
    model = Model((127, 1000), 1)
    for name, (count, entries) in WRONG.items():
        found = len(possible_replies(model, entries, 0))
        if judge(explain, stamped, model, entries) != "stuck" or found != count:
            sys.exit(f"{name}: {found} possible replies, and not {count}")


def main():
    explain, stamped = sys.argv[1:3]
    count = int(sys.argv[3]) if len(sys.argv) > 3 else 10_000
    chance = random.Random(int(sys.argv[4]) if len(sys.argv) > 4 else 1)
    kinds = {}
    judge_wrong(explain, stamped)
    for number in range(count):
        model = Model(chance.choice([(1, 1), (2, 3), (127, 1000)]), chance.choice([0, 0, 1, 2]))
        entries = made(chance, model)
        if number % 2 and entries:
            for _ in range(chance.randint(1, 2)):
                change(chance, entries)
        kind = judge(explain, stamped, model, entries)
        kinds[kind] = kinds.get(kind, 0) + 1
    print(f"brute_force: {count} small histories judged alike: {dict(sorted(kinds.items()))}")


if __name__ == "__main__":
    main()
