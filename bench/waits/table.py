"""Prints the table of waits.sh from its lines 'PROGRAM MODE THREADS WANTED NANOSECONDS MADE BUSY'."""
import collections
import statistics
import sys


def runs():
    """The wall and the processor time of each run, in seconds, by mode and program."""
    times = collections.defaultdict(list)
    for line in open(sys.argv[1]):
        program, mode, threads, wanted, nanoseconds, made, busy = line.split()
        if made != wanted:
            sys.exit(f"not all acquisitions were made: {line}")
        times[mode, program].append((int(wanted), int(nanoseconds) / 1e9, int(busy) / 1e9))
    return times


def main():
    times = runs()
    print(f"{'mode':8}{'lock':16}{'acquired':>10}{'wall s':>10}{'(least':>10}{'most)':>8}"
          f"{'processor s':>13}{'(least':>10}{'most)':>8}{'us each':>9}{'wall/JDK':>10}{'cpu/JDK':>10}")
    for (mode, program), rows in times.items():
        jdk = times[mode, "StampedLock"]
        walls, busies = [row[1] for row in rows], [row[2] for row in rows]
        wall, busy = statistics.median(walls), statistics.median(busies)
        print(f"{mode:8}{program:16}{rows[0][0]:10}{wall:10.3f}{min(walls):10.3f}{max(walls):8.3f}"
              f"{busy:13.3f}{min(busies):10.3f}{max(busies):8.3f}{busy / rows[0][0] * 1e6:9.1f}"
              f"{wall / statistics.median(row[1] for row in jdk):10.2f}"
              f"{busy / statistics.median(row[2] for row in jdk):10.2f}")


main()
