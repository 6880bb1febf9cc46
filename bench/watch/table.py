"""Judges streams by `stamped_watch` and by the judge in C++, alternating, and prints a table.

    table.py PROGRAM CPP EXPLAIN RECORDERS FOLDER ROUNDS CALLS

FOLDER holds the classes of RECORDERS and of Loads. Times are nanoseconds of the processor that whole processes took,
for each call; medians of the rounds. Ratios are ours divided by the other one's, medians of the rounds' ratios. Reading
is C++ alone, for each event. `stamped_explain --judge` has as many calls of the stream's beginning as 16 MiB hold. Peak
memory is what the system tells every hundredth of a second while a run is judged live."""
import os
import statistics
import subprocess
import sys
import threading
import time

LOADS, THREADS = ("mixed", "read", "write", "convert", "waits", "stampless"), (4, 16, 64)
MILLIONS = (1, 4, 16)
MOST_NANOSECONDS, MOST_RATIO, MOST_MEMORY = {16: 1000, 64: 2000}, 3.0, 65_536
MOST_INPUT, HEADER, CALL = 16_777_216, 16, 32


def record(folder, load, threads, calls, path):
    return subprocess.Popen(["java", "-Xmx1g", "-cp", folder, "Loads", load, str(threads), str(calls), path])


def measured(words, path):
    """What a process printed, and the nanoseconds of the processor that it took."""
    with open(path, "rb") as file:
        process = subprocess.Popen(words, stdin=file, stdout=subprocess.PIPE, stderr=subprocess.DEVNULL)
        line = process.stdout.read(200).decode().strip()
        process.stdout.close()
        _, status, usage = os.wait4(process.pid, 0)
    process.returncode = os.waitstatus_to_exitcode(status)
    return line, (usage.ru_utime + usage.ru_stime) * 1e9


def history_of(recorders, stream, path):
    """Writes as much of the stream's beginning as an observed history may have."""
    events = 400_000
    while True:
        with open(stream, "rb") as file:
            begin = file.read(HEADER + 16 * events)
        with open(path, "wb") as out:
            subprocess.run([sys.executable, "-B", os.path.join(recorders, "stream_to_history.py")], input=begin,
                           stdout=out, check=True)
        if os.path.getsize(path) <= MOST_INPUT:
            return
        events = events * 9 // 10


def explained(explain, path):
    """Nanoseconds a call of a history; none where it isn't explained within a minute."""
    try:
        with open(path, "rb") as file:
            subprocess.run([explain, "--judge"], stdin=file, capture_output=True, timeout=60)
    except subprocess.TimeoutExpired:
        return None
    line, taken = measured([explain, "--judge"], path)
    return taken / int(line.split()[1]) if line.startswith("ok ") else None


def time_load(program, cpp, explain, recorders, folder, load, threads, rounds, calls):
    """Medians a call of both, and what `stamped_explain` and reading take."""
    stream, history = (os.path.join(folder, name) for name in ("run.events", "run.json"))
    if record(folder, load, threads, calls, stream).wait() != 0:
        sys.exit(f"{load} {threads}: no stream")
    many = (os.path.getsize(stream) - HEADER) // CALL
    rows = []
    for _ in range(rounds):
        (ours, mine), (line, theirs) = (measured([words], stream) for words in (program, cpp))
        if ours != f"ok {many}" or ours != line:
            sys.exit(f"{load} {threads}: {ours}, and C++: {line}")
        rows.append((mine / many, theirs / many))
    read = min(measured([cpp, "--read"], stream)[1] for _ in range(rounds)) / (2 * many)
    history_of(recorders, stream, history)
    whole = explained(explain, history)
    os.remove(stream)
    ratio = statistics.median(mine / theirs for mine, theirs in rows)
    return (*(statistics.median(each) for each in zip(*rows)), ratio, whole, read)


def peak_of(process, found):
    """Keeps the greatest peak, in KiB, until the process ends."""
    while process.poll() is None:
        try:
            with open(f"/proc/{process.pid}/status") as file:
                found.extend(int(line.split()[1]) for line in file if line.startswith("VmHWM:"))
        except OSError:
            return
        time.sleep(0.01)


def memory_of(program, folder, millions):
    """Peak memory on a run that is judged while it goes on."""
    fifo = os.path.join(folder, f"run.{millions}")
    os.mkfifo(fifo)
    java = record(folder, "mixed", 16, millions * 1_000_000, fifo)
    process, peaks = subprocess.Popen([program, fifo], stdout=subprocess.PIPE, text=True), []
    reading = threading.Thread(target=peak_of, args=(process, peaks))
    reading.start()
    line = process.stdout.read()
    reading.join()
    java.wait()
    if not line.startswith("ok "):
        sys.exit(f"{millions} million calls: {line}")
    return max(peaks)


def print_target(name, figure, most):
    print(f"{name}: {figure:.4g} (target: at most {most}: {'met' if figure <= most else 'MISSED'})", flush=True)


def main():
    program, cpp, explain, recorders, folder, rounds, calls = *sys.argv[1:6], int(sys.argv[6]), int(sys.argv[7])
    print(f"{'ns a call':20}{'ours':>8}{'C++':>8}{'ratio':>8}{'explain':>10}{'its ratio':>11}{'reading an event':>18}")
    found = {}
    for load in LOADS:
        for threads in THREADS:
            row = time_load(program, cpp, explain, recorders, folder, load, threads, rounds, calls)
            mine, theirs, ratio, whole, read = found[load, threads] = row
            beside = f"{whole:10.0f}{mine / whole:11.2f}" if whole else f"{'-':>10}{'-':>11}"
            print(f"{load + f', {threads} threads':20}{mine:8.0f}{theirs:8.0f}{ratio:8.2f}{beside}{read:18.1f}",
                  flush=True)
    for threads, most in MOST_NANOSECONDS.items():
        print_target(f"ns a call with {threads} threads", max(found[load, threads][0] for load in LOADS), most)
    print_target("ratio", max(row[2] for row in found.values()), MOST_RATIO)
    peaks = [memory_of(program, folder, millions) for millions in MILLIONS]
    print("peak memory, KiB: " + ", ".join(f"{many} million calls {peak}" for many, peak in zip(MILLIONS, peaks)))
    print_target("peak memory, KiB", max(peaks), MOST_MEMORY)


main()
