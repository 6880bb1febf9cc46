"""Pipes the history of `recorded_run` into `stamped check`, and compares the answers.

    recorded_run.py RECORDED STAMPED

Both judge the history alike. With one reply changed it is bad at the entry of that reply."""
import json
import subprocess
import sys

ENDS = b"ok 18000\n"


def output_of(words, text=b"", status=0):
    run = subprocess.run(words, input=text, capture_output=True, timeout=3600)
    if run.returncode != status:
        sys.exit(f"{words} ended with status {run.returncode}: {run.stderr}")
    return run.stdout


def assert_answer(answer, wanted):
    if answer != wanted:
        sys.exit(f"{answer}, and not {wanted}")


def main():
    recorded, stamped = sys.argv[1:]
    assert_answer(output_of([recorded]), ENDS)
    text = output_of([recorded, "history"])
    assert_answer(output_of([stamped, "check"], text), ENDS)
    history = json.loads(text)
    entries = history["entries"]
    changed = next(i for i, entry in enumerate(entries) if entry["call"] == ["write_lock"])
    entries[changed]["reply"] += 256
    bad = f"bad {changed} reply\n".encode()
    assert_answer(output_of([stamped, "check"], json.dumps(history).encode(), status=1), bad)
    threads = [entry["thread"] for entry in entries]
    changes = sum(a != b for a, b in zip(threads, threads[1:]))
    print(f"recorded_run: {len(entries)} calls, {changes} changes from thread to thread")


main()
