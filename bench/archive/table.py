"""Prints the table of time.sh from its lines, 'ROUND NAME calls N nanoseconds T sum S' and
'ROUND NAME read 1 PAIRS T GOOD': the least figure of each round, and the medians of the rounds."""
import collections
import statistics
import sys

TARGETS = {"a call": 3.0, "a read pair": 1.3}


def main():
    runs, sums = collections.defaultdict(lambda: collections.defaultdict(list)), set()
    for line in open(sys.argv[1]):
        turn, name, kind, *words = line.split()
        if kind == "calls":
            calls, _, nanoseconds, _, total = words
            sums.add((calls, total))
            runs["a call", name][turn].append(int(nanoseconds) / int(calls))
        else:
            _, pairs, nanoseconds, good = words
            if int(good) != int(pairs):
                sys.exit(f"a pair didn't succeed: {line}")
            runs["a read pair", name][turn].append(int(nanoseconds) / int(pairs))
    if len(sums) != 1:
        sys.exit(f"the sums differ: {sorted(sums)}")
    times = {what: [min(figures) for figures in rounds.values()] for what, rounds in runs.items()}
    print(f"{'ns':16}{'by hand':>10}{'archive':>10}{'ratio':>10}{'target':>10}")
    for kind, target in TARGETS.items():
        by_hand, archive = times[kind, "by_hand"], times[kind, "archive"]
        ratio = statistics.median(ours / theirs for ours, theirs in zip(archive, by_hand))
        print(f"{kind:16}{statistics.median(by_hand):10.2f}{statistics.median(archive):10.2f}{ratio:10.2f}"
              f"{target:10.1f}  {'met' if ratio <= target else 'MISSED'}")


main()
