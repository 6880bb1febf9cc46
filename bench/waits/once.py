"""Runs the program timings once: once.py NAME PROGRAM WHAT EACH. It prints the program's line, with the
name before it and the nanoseconds of processor time of the whole process after it."""
import resource
import subprocess
import sys


def busy():
    """The processor time of the processes that were waited for, also before this program began."""
    used = resource.getrusage(resource.RUSAGE_CHILDREN)
    return used.ru_utime + used.ru_stime


def main():
    name, program, *words = sys.argv[1:]
    before = busy()
    ran = subprocess.run([program, *words], stderr=subprocess.PIPE, text=True, check=True)
    print(name, ran.stderr.strip(), round((busy() - before) * 1e9))


main()
