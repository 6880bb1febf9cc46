"""Times of programs that were linked at several places, from lines 'PROGRAM.PLACE NAME THREADS MADE NANOSECONDS GOOD'."""
import collections
import statistics


class Times:
    """The nanoseconds a call of all rounds, by program, name, threads and place."""

    def __init__(self):
        self.rounds = collections.defaultdict(lambda: collections.defaultdict(list))

    def add(self, program, name, threads, nanoseconds):
        name_of, _, place = program.partition(".")
        self.rounds[name_of, name, threads][place].append(nanoseconds)

    def at_places(self, program, name, threads=1):
        """The least of the rounds at each place: what disturbs a round makes it longer."""
        return [min(it) for it in self.rounds[program, name, threads].values()]

    def least(self, program, name, threads=1):
        return min(self.at_places(program, name, threads))

    def middle(self, program, name, threads=1):
        return statistics.median(self.at_places(program, name, threads))


def row(times, title, ours, theirs, jdk):
    """A line: the least and the median over the places of ours and of C's, both ratios, and the JDK's beside the least."""
    least, c_least = times.least(*ours), times.least(*theirs)
    middle, c_middle = times.middle(*ours), times.middle(*theirs)
    return (f"{title:28}{least:9.2f}{c_least:9.2f}{least / c_least:8.2f}"
            f"{middle:11.2f}{c_middle:9.2f}{middle / c_middle:8.2f}"
            + (f"{times.least(*jdk):11.2f}{least / times.least(*jdk):8.2f}" if jdk else ""))


def head(what):
    return (f"{what:28}{'least':>9}{'C':>9}{'of C':>8}{'median':>11}{'C':>9}{'of C':>8}"
            f"{'JDK':>11}{'of it':>8}")
