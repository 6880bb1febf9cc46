"""Prints a table of time.sh from its lines 'NAME steps N nanoseconds T entries E sum S'."""
import collections
import statistics
import sys

TARGET = 3.0


def main():
    times, sums = collections.defaultdict(list), set()
    for line in open(sys.argv[1]):
        name, _, steps, _, nanoseconds, _, entries, _, total = line.split()
        times[name].append(int(nanoseconds) / int(steps))
        sums.add((steps, entries, total))
    if len(sums) != 1:
        sys.exit(f"the sums differ: {sorted(sums)}")
    for name, figures in times.items():
        print(f"{name:16}{statistics.median(figures):8.1f} ns a step   ({min(figures):.1f} to {max(figures):.1f})")
    ratio = statistics.median(ours / c for ours, c in zip(times["timings"], times["steps_c"]))
    print(f"{'ratio':16}{ratio:8.2f}   (target: at most {TARGET}: {'met' if ratio <= TARGET else 'MISSED'})")
    ((steps, entries, total),) = sums
    print(f"{'sum':16} {total} from both, of {steps} steps and {entries} entries")


main()
