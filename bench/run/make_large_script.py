"""Writes the text of the script that `refused_memory large` makes: make_large_script.py > FILE.

Run by run_script.py, with and without --report, it gives the counts that the program has to print."""
import sys

THREADS, CALLS, STEPS, STRETCH, WIDTH = 64, 10_000, 1_000_000, 100, 16


def words(word):
    return "[" + ",".join([str(word)] * WIDTH) + "]"


def record_call(thread, number):
    if number % 8 == 0:
        return f'["put",{words(thread % 4)}]'
    if number % 8 == 4:
        return f'["put_if",{words(number % 4)},{words(thread % 4)}]'
    return '["get"]'


def call(thread, index):
    def stamped(name, calls):
        return f'["{name}",[{thread},{max(0, index - calls)}]]'

    return [
        lambda: '["try_write"]',
        lambda: stamped("validate", 1),
        lambda: stamped("unlock_write", 2),
        lambda: '["try_read"]',
        lambda: stamped("to_write", 1),
        lambda: stamped("unlock", 1),
        lambda: stamped("unlock", 3),
        lambda: record_call(thread, index // 8),
    ][index % 8]()


def thread_of(stretch):
    return stretch * 2_654_435_761 % 2**32 // 2**26


def main():
    steps = ",".join(str(thread_of(position // STRETCH)) for position in range(STEPS))
    calls = (",".join(call(t, i) for i in range(CALLS)) for t in range(THREADS))
    threads = ",".join(f"[{text}]" for text in calls)
    sys.stdout.write(
        f'{{"readers":127,"steps":[{steps}],"threads":[{threads}],'
        f'"versions":36028797018963966,"width":{WIDTH}}}'
    )


main()
