"""Writes a replay of so many calls to a file: make_replay.py FILE [CALLS].

The calls go round a cycle in which each finds the lock free, or held by the stamp that it names,
so none waits. The same number of calls gives the same file."""
import itertools
import json
import sys


def calls():
    for free in itertools.count(256, 3 * 256):  # the word, and the optimistic stamp of its version
        yield from (["optimistic"], ["validate", free])
        yield from (["try_read"], ["read_lock"], ["is_read_locked"])
        yield from (["unlock_read", free + 1], ["read_count"])
        first, second, third = free + 128, free + 256 + 128, free + 2 * 256 + 128
        yield from (["to_write", free + 1], ["is_write_locked"])
        yield from (["to_read", first], ["to_optimistic", free + 257])
        yield from (["write_lock"], ["validate", second], ["unlock_write", second])
        yield from (["try_write"], ["unlock", third])
        yield from (["try_read"], ["try_unlock_read"])
        yield from (["try_unlock_write"], ["unlock_write", third])


def main():
    path, count = sys.argv[1], int(sys.argv[2]) if len(sys.argv) > 2 else 640_000
    replay = {"calls": list(itertools.islice(calls(), count)), "readers": 127, "versions": 1_000_000}
    with open(path, "w") as file:
        json.dump(replay, file, separators=(",", ":"))
        file.write("\n")


main()
