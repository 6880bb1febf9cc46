"""Prints the table of time.sh from its lines 'CALLS WALKS WIDTH NAME entries N nanoseconds T'."""
import collections
import statistics
import sys

TARGET = 3.0


def main():
    times, entries = collections.defaultdict(list), collections.defaultdict(set)
    for line in open(sys.argv[1]):
        calls, walks, width, name, _, checked, _, nanoseconds = line.split()
        record = (int(calls), int(width))
        times[record, name].append(int(nanoseconds) / int(checked))
        entries[record].add(checked)
    print(f"{'calls':>8}{'width':>7}{'C, ns':>9}{'check, ns':>11}{'ratio':>8}   (target: at most {TARGET})")
    for record, checked in entries.items():
        if len(checked) != 1:
            sys.exit(f"the verdicts on {record} differ: {sorted(checked)}")
        c, ours = times[record, "check_c"], times[record, "timings"]
        ratio = statistics.median(o / p for o, p in zip(ours, c))
        verdict = "met" if ratio <= TARGET else "MISSED"
        print(f"{record[0]:8}{record[1]:7}{statistics.median(c):9.1f}{statistics.median(ours):11.1f}{ratio:8.2f}   {verdict}")


main()
