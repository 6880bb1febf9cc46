"""Runs of the JDK's `StampedLock`, observed by recorders/java and judged.

    jdk.py EXPLAIN STAMPED [CALLS [ROUNDS]]

Run at the top of the repository; it wants javac and java. ROUNDS times (once if not said) runs of 2 to 64
threads are observed, CALLS each (2,000 if not said). All must be explained, and `stamped check` must accept
what explains them, with as many entries as calls; it takes 16 MiB, 130,000 to 170,000 calls. So must a run of the
program Accounts. Where the JDK's class differs from this lock, the smallest observed history that shows it must be
stuck."""
import glob
import itertools
import json
import subprocess
import sys
import tempfile
import time

JAVA, THREADS = "recorders/java", (2, 4, 8, 16, 32, 64)


def call(thread, first, last, reply, *words):
    return {"call": list(words), "first": first, "last": last, "reply": reply, "thread": thread}


def readers(last_reply):
    """A read acquisition for each number from 257, one after the other, and one more."""
    replies = [*range(257, 383), last_reply]
    return [call(i % 4, 2 * i, 2 * i + 1, reply, "try_read") for i, reply in enumerate(replies)]


DIFFERENCES = {
    "two releases of one hold": (
        [call(0, 0, 3, 384, "try_write"), call(0, 6, 8, 513, "to_read", 384), call(1, 7, 9, 513, "to_read", 384)],
        "stuck 2"),
    "a released write stamp": (
        [call(0, 0, 1, 384, "try_write"), call(0, 2, 3, "done", "unlock_write", 384),
         call(0, 4, 5, "no", "validate", 384)],
        "stuck 2"),
    "the 127th reader": (readers(382), "stuck 126"),
    "a number that is no stamp": (
        [call(0, 0, 1, 384, "try_write"), call(0, 2, 3, "yes", "validate", 385)], "stuck 1"),
}


def judged(explain, stamped, text):
    """What `stamped check` says of the recorded history that explains a run; or why there is none."""
    found = subprocess.run([explain], input=text, capture_output=True)
    if found.returncode == 0:
        found = subprocess.run([stamped, "check"], input=found.stdout, capture_output=True)
    return (found.stdout or found.stderr).decode().rstrip("\n")


def wants(found, wanted, name):
    if found != wanted:
        sys.exit(f"{name}: {found!r}, and not {wanted!r}")


def try_differences(explain, stamped):
    for name, (entries, wanted) in DIFFERENCES.items():
        history = {"entries": entries, "format": 1, "readers": 127, "versions": 1000, "width": 0}
        wants(judged(explain, stamped, json.dumps(history).encode()), wanted, name)


def try_run(explain, stamped, words):
    """The calls of a run, and the seconds that judging it took."""
    text = subprocess.run(["java", "-Xmx1g", "-cp", *words], capture_output=True, check=True).stdout
    calls = len(json.loads(text)["entries"])
    start = time.monotonic()
    wants(judged(explain, stamped, text), f"ok {calls}", " ".join(words[1:]))
    return calls, time.monotonic() - start


def main():
    explain, stamped = sys.argv[1:3]
    most = int(sys.argv[3]) if len(sys.argv) > 3 else 2000
    rounds = int(sys.argv[4]) if len(sys.argv) > 4 else 1
    try_differences(explain, stamped)
    total = 0
    with tempfile.TemporaryDirectory() as classes:
        subprocess.run(["javac", "-d", classes, *sorted(glob.glob(f"{JAVA}/*.java"))], check=True)
        total += try_run(explain, stamped, [classes, "Accounts", "100"])[0]
        for seed, threads in itertools.product(range(rounds), THREADS):
            calls, seconds = try_run(explain, stamped, [classes, "ObservedRun", str(threads), str(most), str(seed)])
            total += calls
            print(f"jdk: {threads} threads, {calls} calls, ok, judged in {seconds:.2f} s", flush=True)
    print(f"jdk: {total} calls explained; {len(DIFFERENCES)} differences are stuck")


if __name__ == "__main__":
    main()
