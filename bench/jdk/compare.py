"""Compares what `stamped replay` and the JDK's StampedLock answer to the same calls of one thread.

    python3 compare.py PROGRAM CLASSES SEQUENCES SEED

PROGRAM is `stamped`, CLASSES the folder of Replays.class. Each sequence of calls begins on a new lock.
There are three sets of sequences:

    random    SEQUENCES of 1 to 40 calls: all seventeen, with stamps that were returned earlier,
              released or not, with their neighbours, and with numbers that are no stamps
    crowded   a tenth as many: 124 to 126 read acquisitions, and then 1 to 40 calls as above
    numbers   in each of nine states each call that takes a stamp, with each number below 1,024 and
              eight large ones, and then three calls that look at the lock

Where a call takes a stamp that was returned earlier, both sides get the number that the JDK's class
returned. Replies are compared one by one. After a difference the comparison goes on if both locks are
alike: two replies of `validate`, or two stamps other than 0. It ends at any other difference, and at a
call that waits. A kind of difference is the call, what holds the lock, what its number is, and both
replies. Of each kind the shortest sequences are shrunk, call by call, and the smallest is printed.
Then come sequences that answer questions, the JDK's tests of a number beside `stamped stamp`, and
what the JDK's class does behind its last version, which no run reaches: its word is set.
"""
import collections
import itertools
import json
import random
import subprocess
import sys

BARE = ["try_write", "try_read", "write_lock", "read_lock", "optimistic", "try_unlock_write",
        "try_unlock_read", "is_write_locked", "is_read_locked", "read_count"]
STAMPED = ["validate", "unlock_write", "unlock_read", "unlock", "to_write", "to_read", "to_optimistic"]
NAMES = BARE + STAMPED
READS = {"try_read", "read_lock", "to_read"}
RETURN = {"try_write", "try_read", "write_lock", "read_lock", "optimistic", "to_write", "to_read",
          "to_optimistic"}
# A call that waits ends its sequence, so the two that may are drawn half as often.
WEIGHTS = [1 if name in ("write_lock", "read_lock") else 2 for name in NAMES]
PLAINER = [{"write_lock": "try_write", "read_lock": "try_read"}, {"to_read": "try_read"}]
FAILURES = (0, "no", "mismatch", "waits")

BELOW = 1 << 64
LARGE = [BELOW // 2 + by for by in (-128, 0, 1)] + [BELOW - by for by in (256, 129, 128, 127, 1)]
SMALL = [0, 1, 127, 128, 129, 255, 256, 257, 382, 383, 384, 385, 511, 512, 513, 640]
NEAR = [1, -1, 2, -2, 127, -127, 128, -128, 129, -129, 256, -256]

READ, WRITE, RELEASE = ("try_read", None), ("try_write", None), ("try_unlock_write", None)
STATES = [[], [READ], [READ, READ], [WRITE], [WRITE, RELEASE], [WRITE, RELEASE, READ],
          [WRITE, RELEASE, READ, READ], [WRITE, RELEASE, WRITE], [WRITE, RELEASE, WRITE, RELEASE]]
LOOKS = [("is_write_locked", None), ("read_count", None), ("optimistic", None)]

QUESTIONS = [
    ("the first stamps", "optimistic try_read try_unlock_read try_write"),
    ("0 is not valid", "validate:0 try_write validate:0"),
    ("an optimistic stamp to read mode", "optimistic to_read:@0 to_read:@0 read_count"),
    ("an optimistic stamp to write mode", "optimistic to_write:@0 validate:@0 validate:@1"),
    ("the same beside a reader", "try_read optimistic to_write:@1 to_write:@0"),
    ("unlock of an optimistic stamp", "optimistic unlock:@0 try_read unlock:@0 read_count"),
    ("two readers of one version", "try_read try_read unlock_read:@0 unlock_read:@0 unlock_read:@1"),
    ("a read stamp never returned", "try_read unlock_read:300 read_count"),
    ("a read stamp of an older version",
     "try_read unlock_read:@0 try_write unlock_write:@2 try_read unlock_read:@0 unlock:@0 validate:@0 "
     "read_count"),
    ("a released write stamp", "try_write unlock_write:@0 validate:@0 unlock_write:@0 unlock:@0 "
     "to_write:@0 to_read:@0 to_optimistic:@0"),
    ("the same beside a reader", "try_write to_read:@0 validate:@0 unlock:@0 to_optimistic:@0"),
    ("the same after the next acquisition", "try_write unlock_write:@0 try_write validate:@0"),
    ("a number above the write stamp that is held", "try_write validate:385 validate:511 validate:512 "
     "unlock_write:385 unlock_read:385 unlock:385 to_write:385 to_read:385 to_optimistic:385"),
    ("128 readers by try_read", "try_read " * 127 + "read_count try_read read_count"),
    ("128 readers by read_lock", "read_lock " * 128),
    ("128 readers by to_read", "to_read:256 " * 128),
    ("1,000 readers", "try_read " * 1000 + "read_count"),
    ("127 readers, who release", "try_read " * 127 + "unlock_read:383 unlock_read:382 read_count "
     "to_optimistic:383 unlock:382 read_count"),
    ("127 readers, none the only one", "try_read " * 127 + "to_write:382 to_write:383 is_write_locked"),
]


class Jdk:
    """The JDK's class, in one process that takes a line at a time."""

    def __init__(self, classes):
        self.process = subprocess.Popen(
            ["java", "-XX:+UseSerialGC", "-XX:TieredStopAtLevel=1", "--add-opens",
             "java.base/java.util.concurrent.locks=ALL-UNNAMED", "-cp", classes, "Replays"],
            stdin=subprocess.PIPE, stdout=subprocess.PIPE, text=True, bufsize=1)

    def answers(self, calls):
        """What held the lock before each call that was made, its number, and its reply."""
        self.process.stdin.write(" ".join(written(call) for call in calls) + "\n")
        line = self.process.stdout.readline()
        if not line:
            sys.exit(f"no answer from java: {calls}")
        answers = [answer.split("/") for answer in line.rstrip("\n").split(" ")]
        return [(holders, None if number == "-" else int(number), reply_of(text))
                for holders, number, text in answers]


def written(call):
    """A call in the runner's form."""
    name, stamp = call
    if stamp is None:
        return name
    if isinstance(stamp, int):
        return f"{name}:{stamp}"
    return f"{name}:@{stamp[0]}" + (f"{stamp[1]:+}" if stamp[1] else "")


def reply_of(text):
    if text.startswith("count:"):
        return {"count": int(text[6:])}
    return int(text) if text.isdigit() else text


def parsed(text):
    """The calls of a line in the runner's form."""
    calls = []
    for word in text.split():
        name, _, stamp = word.partition(":")
        calls.append((name, None if not stamp else
                      (int(stamp[1:]), 0) if stamp[0] == "@" else int(stamp)))
    return calls


def numbers_of(calls, answers):
    """The calls that were made, with the numbers that they took."""
    return [(name, number) for (name, _), (_, number, _) in zip(calls, answers)]


class Ours:
    """`stamped`, a process for each sequence."""

    def __init__(self, program):
        self.program = program

    def ran(self, words, text=""):
        done = subprocess.run([self.program, *words], input=text.encode(), stdout=subprocess.PIPE,
                              stderr=subprocess.STDOUT, check=False, close_fds=False)
        return done.returncode, done.stdout.decode()

    def answers(self, calls):
        """The replies to calls with numbers; the last one is "waits" if a call waits."""
        listed = [[name] if number is None else [name, number] for name, number in calls]
        text = json.dumps({"calls": listed, "readers": 127, "versions": 36028797018963966})
        status, line = self.ran(["replay"], text)
        if status == 0:
            return json.loads(line)["replies"]
        words = line.split()
        if status != 1 or words[:2] != ["stamped:", "call"] or words[3:] != ["waits"]:
            sys.exit(f"{self.program} ended with {status}: {line}{text}")
        return (self.answers(calls[:int(words[2])]) if words[2] != "0" else []) + ["waits"]


Difference = collections.namedtuple("Difference", "at kind")
Comparison = collections.namedtuple("Comparison", "numbered theirs ours differences")


def compared(jdk, program, calls):
    """Both sides' replies to a sequence, up to where they part, and the differences."""
    answers = jdk.answers(calls)
    numbered = numbers_of(calls, answers)
    theirs, ours = [reply for _, _, reply in answers], program.answers(numbered)
    acquired, differences, at = set(), [], 0
    for at, (their, our) in enumerate(zip(theirs, ours)):
        name, number = numbered[at]
        if their != our:
            kind = kind_of(name, answers[at][0], number, len(acquired), their, our)
            differences.append(Difference(at, kind))
            if name != "validate" and not (is_stamp(their) and is_stamp(our)):
                break
        # Each write acquisition returns a stamp of its own.
        if name in ("try_write", "write_lock", "to_write") and is_stamp(their):
            acquired.add(their)
    return Comparison(numbered[:at + 1], theirs[:at + 1], ours[:at + 1], differences)


def is_stamp(reply):
    return isinstance(reply, int) and reply != 0


def kind_of(name, holders, number, version, their, our):
    """The call, what holds the lock, what the number is, and both replies."""
    if holders in ("w", "0"):
        held = "write mode" if holders == "w" else "nobody"
    else:
        held = f"{holders} readers" if int(holders) > 125 and name in READS else "readers"
    return name, held, stamp_name(number, version), shape(their), \
        "another stamp" if is_stamp(their) and is_stamp(our) else shape(our)


def shape(reply):
    return "stamp" if is_stamp(reply) else "count" if isinstance(reply, dict) else str(reply)


def stamp_name(number, version):
    """What a number is as a stamp of layout 1, beside the lock's version."""
    if number is None:
        return "-"
    place, of = number % 256, number // 256 - (number % 256 != 128)
    if number < 256 or place > 128:
        return "0" if number == 0 else "no stamp"
    age = "this version" if of == version else "an older version" if of < version else "a later version"
    return ("write" if place == 128 else "read" if place else "optimistic") + " stamp of " + age


def drawn(chance, most):
    """A random sequence."""
    calls, returned = [], []
    for at in range(chance.randint(1, most)):
        name = chance.choices(NAMES, WEIGHTS)[0]
        calls.append((name, drawn_stamp(chance, returned) if name in STAMPED else None))
        if name in RETURN:
            returned.append(at)
    return calls


def drawn_stamp(chance, returned):
    """What an earlier call returned, mostly a recent one; its neighbour; or a number."""
    way = chance.random()
    if returned and way < 0.5:
        return chance.choice(returned[-3:]), 0
    if returned and way < 0.75:
        return chance.choice(returned), 0
    if returned and way < 0.88:
        return chance.choice(returned), chance.choice(NEAR)
    if way < 0.98:
        return chance.choice(SMALL + LARGE)
    return chance.randrange(BELOW)


def random_set(chance, count):
    for _ in range(count):
        yield drawn(chance, 40)


def crowded_set(chance, count):
    """Readers up to the last places, in the first version or the second; then random calls."""
    for _ in range(count):
        before = chance.choice([[], [WRITE, RELEASE]])
        read = chance.choice([READ, ("read_lock", None), ("to_read", 512 if before else 256)])
        before = before + [read] * chance.randint(124, 126)
        yield before + [(name, (stamp[0] + len(before), stamp[1]) if isinstance(stamp, tuple) else stamp)
                        for name, stamp in drawn(chance, 40)]


def numbers_set():
    for state, name, number in itertools.product(STATES, STAMPED, list(range(1024)) + LARGE):
        yield state + [(name, number)] + LOOKS


class Tally:
    """What was counted of a set of sequences, and for each kind its shortest sequences."""

    def __init__(self):
        self.sequences = self.alike = self.waited = self.calls = 0
        self.by_call, self.succeeded = collections.Counter(), collections.Counter()
        self.kinds, self.holding, self.shortest = collections.Counter(), collections.Counter(), {}

    def add(self, calls, comparison):
        self.sequences += 1
        self.alike += not comparison.differences
        self.waited += comparison.theirs[-1] == comparison.ours[-1] == "waits"
        self.calls += len(comparison.theirs)
        for (name, _), reply in zip(comparison.numbered, comparison.theirs):
            self.by_call[name] += 1
            self.succeeded[name] += reply not in FAILURES
        for difference in comparison.differences:
            self.kinds[difference.kind] += 1
            kept = self.shortest.setdefault(difference.kind, [])
            kept.append(calls[:difference.at + 1])
            kept.sort(key=len)
            del kept[3:]
        self.holding.update({difference.kind for difference in comparison.differences})


def without(calls, gone, numbered):
    """The other calls; what took the stamp of a call that is gone takes the number that it was."""
    places = [place for place in range(len(calls)) if place not in gone]
    shorter = []
    for place in places:
        name, stamp = calls[place]
        if isinstance(stamp, tuple):
            stamp = numbered[place][1] if stamp[0] in gone else (places.index(stamp[0]), stamp[1])
        shorter.append((name, stamp))
    return shorter


def shows(jdk, program, calls, kind):
    """The sequence cut off behind its first difference of this kind, with its comparison, or None."""
    comparison = compared(jdk, program, calls)
    places = [difference.at for difference in comparison.differences if difference.kind == kind]
    return (calls[:places[0] + 1], comparison) if places else None


def shrunk(jdk, program, calls, kind):
    """A sequence with this kind of difference, of which no call and no two neighbours can be left out.
    Where it shows the same with plainer calls before its last, these are taken."""
    calls, comparison = shows(jdk, program, calls, kind)
    for width in (1, 2, 1):
        at = len(calls) - 1 - width
        while at >= 0:
            fewer = without(calls, range(at, at + width), comparison.numbered)
            shorter = shows(jdk, program, fewer, kind)
            if shorter:
                calls, comparison = shorter
                at = len(calls) - width
            at -= 1
    for names in PLAINER:
        plainer = [(names[name], None) if name in names else (name, stamp) for name, stamp in calls[:-1]]
        calls, comparison = shows(jdk, program, plainer + calls[-1:], kind) or (calls, comparison)
    last = len(calls)
    return comparison.numbered[:last], comparison.theirs[last - 1], comparison.ours[last - 1]


def shown(words):
    """Words in one line, equal neighbours counted."""
    runs = [(word, len(list(run))) for word, run in itertools.groupby(words)]
    return ", ".join(word if count == 1 else f"{word} ×{count}" for word, count in runs)


def named(calls):
    return shown(name if number is None else f"{name} {number}" for name, number in calls)


def replied(replies):
    """Replies in one line; a hundred and more at the beginning that rise by one are two."""
    words = [str(reply["count"]) if isinstance(reply, dict) else str(reply) for reply in replies]
    rising = 1
    while rising < len(replies) and is_stamp(replies[0]) and replies[rising] == replies[0] + rising:
        rising += 1
    if rising > 100:
        words[:rising] = [f"{words[0]} to {words[rising - 1]}"]
    return shown(words)


def print_counts(tallies):
    print("| Set | Sequences | Alike | With a difference | Both wait at the end | Calls compared "
          "| Differences |\n|---|---|---|---|---|---|---|")
    for name, tally in tallies.items():
        print(f"| {name} | {tally.sequences:,} | {tally.alike:,} | {tally.sequences - tally.alike:,} "
              f"| {tally.waited:,} | {tally.calls:,} | {sum(tally.kinds.values()):,} |")
    print("\n| Call | " + " | ".join(f"{name} | succeeded" for name in tallies)
          + " |\n|---" + "|---|---" * len(tallies) + "|")
    for name in NAMES:
        print(f"| {name} | " + " | ".join(f"{tally.by_call[name]:,} | {tally.succeeded[name]:,}"
                                          for tally in tallies.values()) + " |")


def print_kinds(jdk, program, tallies):
    """Each kind with its counts and its smallest sequence."""
    kinds = sorted({kind for tally in tallies.values() for kind in tally.kinds})
    print("\n| Call | The lock is held by | Its number is | JDK | stamped | " + " | ".join(tallies)
          + " | Smallest sequence | JDK | stamped |\n|---" + "|---" * (7 + len(tallies)) + "|")
    for kind in kinds:
        examples = [calls for tally in tallies.values() for calls in tally.shortest.get(kind, [])]
        found = [shrunk(jdk, program, calls, kind) for calls in examples]
        calls, their, our = min(found, key=lambda example: (len(example[0]), named(example[0])))
        print("| " + " | ".join(kind) + " | "
              + " | ".join(f"{tally.kinds[kind]:,} in {tally.holding[kind]:,}" for tally in tallies.values())
              + f" | {named(calls)} | {replied([their])} | {replied([our])} |")


def print_questions(jdk, program):
    print("\n| Question | Calls | JDK | stamped | |\n|---|---|---|---|---|")
    for title, text in QUESTIONS:
        calls = parsed(text)
        answers = jdk.answers(calls)
        numbered, theirs = numbers_of(calls, answers), [reply for _, _, reply in answers]
        ours = program.answers(numbered)
        print(f"| {title} | {named(numbered)} | {replied(theirs)} | {replied(ours)} "
              f"| {'alike' if theirs == ours else 'different'} |")


def print_tests(jdk, program):
    """The JDK's four tests of a number beside `stamped stamp`."""
    names = {"write": "lock,write", "read": "lock,read", "optimistic": "optimistic", "none": ""}
    numbers, kinds, least = list(range(1024)) + LARGE, collections.Counter(), {}
    for number in numbers:
        (_, _, their), = jdk.answers([("kind", number)])
        status, line = program.ran(["stamp", str(number)])
        if status:
            sys.exit(f"stamped stamp {number} ended with {status}: {line}")
        if names[line.split()[0]] != their:
            kind = their or "none", line.split()[0]
            kinds[kind] += 1
            least.setdefault(kind, number)
    print(f"\nTests of {len(numbers):,} numbers, different for {sum(kinds.values()):,}:")
    for kind, count in kinds.items():
        print(f"JDK {kind[0]}, stamped {kind[1]}: {count:,}, the least {least[kind]}")


def print_last_version(jdk):
    calls = parsed(f"word:{BELOW - 256} optimistic validate:256 try_write unlock_write:@3 optimistic "
                   "validate:256 try_write")
    answers = jdk.answers(calls)
    print(f"\nThe last version, JDK alone: {named(numbers_of(calls, answers))}: "
          f"{replied([reply for _, _, reply in answers])}")


def main():
    program, jdk = Ours(sys.argv[1]), Jdk(sys.argv[2])
    sequences, chance = int(sys.argv[3]), random.Random(int(sys.argv[4]))
    sets = {"random": random_set(chance, sequences), "crowded": crowded_set(chance, sequences // 10),
            "numbers": numbers_set()}
    tallies = {}
    for name, calls_of in sets.items():
        tallies[name] = Tally()
        for calls in calls_of:
            tallies[name].add(calls, compared(jdk, program, calls))
    print_counts(tallies)
    print_kinds(jdk, program, tallies)
    print_questions(jdk, program)
    print_tests(jdk, program)
    print_last_version(jdk)


if __name__ == "__main__":
    main()
