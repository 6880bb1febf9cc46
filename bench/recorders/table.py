"""Prints the tables of time.sh from its lines 'java|c WAY THREADS CALLS NANOSECONDS CPU_NANOSECONDS'."""
import collections
import statistics
import sys

WAYS = [("java", "none", "Java, not recorded"), ("java", "tapes", "  in memory"), ("java", "null", "  to /dev/null"),
        ("java", "stream", "  to a file"), ("java", "other", "  in memory, of OTHER"),
        ("c", "none", "C, not recorded"), ("c", "null", "  to /dev/null"), ("c", "stream", "  to a file")]


def print_table(title, times):
    threads = sorted({key[2] for key in times})
    print(title.ljust(48) + "".join(f"{f'{it} threads':>18}" for it in threads))
    for language, way, name in WAYS:
        rows = [times.get((language, way, it)) for it in threads]
        if all(rows):
            cells = [f"{min(row):.1f} ({statistics.median(row):.1f})" for row in rows]
            print(name.ljust(48) + "".join(f"{cell:>18}" for cell in cells))


def main():
    wall, processor = collections.defaultdict(list), collections.defaultdict(list)
    for line in open(sys.argv[1]):
        language, way, threads, calls, nanoseconds, cpu = line.split()
        wall[language, way, int(threads)].append(int(nanoseconds) / int(calls))
        processor[language, way, int(threads)].append(int(cpu) / int(calls))
    print_table("ns a call, of all threads: least (median)", wall)
    print()
    print_table("ns a call of all processors, writing too", processor)


main()
