"""Runs of this repository's own lock, record and guarded value, observed by `observed_handles` and judged.

    handles.py HANDLES EXPLAIN STAMPED

Runs of 2 to 8 threads by handles, with all seventeen calls of the lock and the three of the record. Each must be
explained, and `stamped check` must accept what explains it, with as many entries as calls. Wrong runs must be
stuck: one with a stamp of a version that there never was, at the entry of that stamp; one with an update that lost
others, and one with an update that left out a word; one whose tickets tell the calls in the opposite order; and
some run of a recorder that takes both tickets before the call.

Runs of 1 to 4 threads by handles and guards of a guarded value, some of each by other seeds, with all calls that
these have, and what was read and written in a mode. The same is asked of them, but for the updates: in place of
these one get has the words that the last put replaced, and the run must be stuck there."""
import json
import subprocess
import sys

RUNS = [(2, 1000), (3, 500), (4, 500), (6, 300), (8, 200)]
VALUE_RUNS = [(threads, rounds, seed) for threads, rounds in [(1, 400), (2, 400), (4, 200)] for seed in (0, 100, 200)]
CALLS = {"try_write", "try_read", "write_lock", "read_lock", "optimistic", "validate", "unlock_write", "unlock_read",
         "unlock", "to_write", "to_read", "to_optimistic", "try_unlock_write", "try_unlock_read", "is_write_locked",
         "is_read_locked", "read_count", "get", "put", "put_if"}
VALUE_CALLS = {"try_write", "try_read", "write_lock", "read_lock", "optimistic", "validate", "unlock_write",
               "unlock_read", "to_write", "to_read", "get", "put"}


def output_of(words, text=b""):
    return subprocess.run(words, input=text, capture_output=True, timeout=3600).stdout


def explained(explain, history):
    return output_of([explain], json.dumps(history).encode())


def with_later_stamp(history):
    """The history with one stamp of a version that there never was, and that entry's number."""
    entries = [dict(entry) for entry in history["entries"]]
    wrong = next(i for i, entry in enumerate(entries) if entry["call"] == ["write_lock"])
    entries[wrong]["reply"] += 256 * len(entries)
    return {**history, "entries": entries}, wrong


def with_stale_get(history):
    """The history with the last get as if it had not seen the last put before it, and that entry's number."""
    entries = [dict(entry) for entry in history["entries"]]
    stale = max((i for i, entry in enumerate(entries) if entry["call"] == ["get"] and any(entry["reply"])),
                key=lambda i: entries[i]["first"])
    puts = sorted((entry for entry in entries if entry["call"][0] == "put"), key=lambda entry: entry["first"])
    words = [[0] * history["width"], *(entry["call"][1] for entry in puts)]
    entries[stale]["reply"] = words[words.index(entries[stale]["reply"]) - 1]
    return {**history, "entries": entries}, stale


def is_update(entry):
    return entry["call"][0] == "put_if" and entry["reply"] == "yes"


def with_call(history, changed, call):
    """The history in which this entry has another call."""
    entries = [{**entry, "call": call} if entry is changed else entry for entry in history["entries"]]
    return {**history, "entries": entries}


def with_lost_update(history):
    """The history as if the update that began last had put over the zeros at first, which nobody puts again."""
    update = max(filter(is_update, history["entries"]), key=lambda entry: entry["first"])
    _, old, new = update["call"]
    return with_call(history, update, ["put_if", [0] * len(old), new])


def with_torn_update(history):
    """The history as if an update had left out its last word. What it put was read, and nobody else put it."""
    entries = history["entries"]
    put = [entry["call"][-1] for entry in entries if entry["call"][0] == "put" or is_update(entry)]
    read = [entry["reply"] for entry in entries if entry["call"] == ["get"]]
    update = next(entry for entry in entries if is_update(entry) and put.count(entry["call"][2]) == 1
                  and entry["call"][2] in read)
    _, old, new = update["call"]
    return with_call(history, update, ["put_if", old, new[:-1] + old[-1:]])


def turned_round(history):
    """The history as if its calls had been made from the last to the first, each thread's too."""
    last = max(entry["last"] for entry in history["entries"])
    entries = [{**entry, "first": last - entry["last"], "last": last - entry["first"]} for entry in history["entries"]]
    return {**history, "entries": entries}


def with_early_tickets(history):
    """The history as if both tickets had been taken before each call."""
    return {**history, "entries": [{**entry, "last": entry["first"]} for entry in history["entries"]]}


def wants(found, wanted, name):
    if found != wanted:
        sys.exit(f"{name}: {str(found)[:80]}, and not {wanted}")


class Judge:
    """Judges runs, and keeps how many calls they had, and which."""

    def __init__(self, handles, explain, stamped):
        self.handles, self.explain, self.stamped = handles, explain, stamped
        self.runs, self.total, self.made = 0, 0, set()

    def right_run(self, name, *words):
        """A run by the program with these arguments, which must be explained."""
        history = json.loads(output_of([self.handles, *map(str, words)]))
        entries = history["entries"]
        found = output_of([self.stamped, "check"], explained(self.explain, history))
        wants(found, f"ok {len(entries)}\n".encode(), name)
        self.runs += 1
        self.total += len(entries)
        self.made.update(entry["call"][0] for entry in entries)
        return history

    def is_stuck_at(self, changed, at, name):
        wants(explained(self.explain, changed), f"stuck {at}\n".encode(), name)

    def is_stuck(self, changed, name):
        wants(explained(self.explain, changed)[:6], b"stuck ", name)

    def tell(self, name, calls):
        wants(self.made, calls, f"the calls of {name}")
        print(f"handles: {self.total} calls of {name} in {self.runs} runs explained, and the wrong runs are stuck")


def judge_handles(judge):
    early = 0
    for threads, rounds in RUNS:
        name = f"{threads} threads"
        history = judge.right_run(name, threads, rounds)
        judge.is_stuck_at(*with_later_stamp(history), f"{name}, a later stamp")
        for change in (with_lost_update, with_torn_update, turned_round):
            judge.is_stuck(change(history), f"{name}, {change.__name__}")
        early += explained(judge.explain, with_early_tickets(history)).startswith(b"stuck ")
    wants(early > 0, True, "both tickets before the call")
    judge.tell("lock and record", CALLS)


def judge_values(judge):
    for threads, rounds, seed in VALUE_RUNS:
        name = f"a value, {threads} threads, seed {seed}"
        history = judge.right_run(name, threads, rounds, "value", seed)
        judge.is_stuck_at(*with_later_stamp(history), f"{name}, a later stamp")
        judge.is_stuck_at(*with_stale_get(history), f"{name}, a stale get")
        judge.is_stuck(turned_round(history), f"{name}, turned round")
    judge.tell("a guarded value", VALUE_CALLS)


def main():
    programs = sys.argv[1:]
    judge_handles(Judge(*programs))
    judge_values(Judge(*programs))


main()
