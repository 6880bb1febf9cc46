"""Runs programs whose allocations and frees are counted, by the shim that refuse_malloc.c makes.

A run must have freed each block that it was given when it ends: a refused call leaves nothing of what
it was handed by value, or had made so far."""
import os
import subprocess
import sys
import tempfile


def number_in(path):
    """The number that a file has; none where a run ended before it was written."""
    if not os.path.exists(path):
        return None
    with open(path) as file:
        return int(file.read())


class CountedRuns:
    """The shims that are loaded before a program, and how many runs of each program were counted."""

    def __init__(self, *shims):
        self.shims = ":".join(os.path.abspath(shim) for shim in shims)
        self.counts = {}

    def ended(self, words, text, **refused):
        """How a run ended, and whether it asked for the allocation that was to be refused.

        What is refused has the number that stands in the environment under its name."""
        with tempfile.TemporaryDirectory() as room:
            marker, left = os.path.join(room, "refused"), os.path.join(room, "left")
            env = dict(os.environ, LD_PRELOAD=self.shims, REFUSED=marker, LEFT=left)
            env.update({name: str(number) for name, number in refused.items()})
            ran = subprocess.run(words, input=text, capture_output=True, env=env, timeout=3600)
            if number_in(left) != 0:
                sys.exit(f"{words} of {text[:400]}, {refused}: blocks left: {number_in(left)}")
            name = os.path.basename(words[0])
            self.counts[name] = self.counts.get(name, 0) + 1
            return (ran.returncode, ran.stdout, ran.stderr), os.path.exists(marker)

    def tell(self):
        for name, count in self.counts.items():
            print(f"{name}: {count} runs, no block left after any")
