"""Prints the table of time.sh from its lines 'NAME calls N nanoseconds T sum S'."""
import collections
import statistics
import sys

TARGET = 2.0


def main():
    times, sums = collections.defaultdict(list), set()
    for line in open(sys.argv[1]):
        name, _, calls, _, nanoseconds, _, total = line.split()
        times[name].append(int(nanoseconds) / int(calls))
        sums.add((calls, total))
    if len(sums) != 1:
        sys.exit(f"the sums differ: {sorted(sums)}")
    for name, figures in times.items():
        print(f"{name:16}{statistics.median(figures):8.2f} ns a call   ({min(figures):.2f} to {max(figures):.2f})")
    ratios = [ours / c for ours, c in zip(times["timings"], times["decide_c"])]
    ratio = statistics.median(ratios)
    print(f"{'ratio':16}{ratio:8.2f}   (target: at most {TARGET}: {'met' if ratio <= TARGET else 'MISSED'})")
    ((calls, total),) = sums
    print(f"{'sum':16} {total} from both, of {calls} calls")


main()
