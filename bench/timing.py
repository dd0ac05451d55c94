"""The least time and the greatest memory of some runs of a program."""
import os
import subprocess
import sys
import time

RUNS = 3


def least_of(words, lines=os.devnull, files=(), statuses=(0,), errors=None):
    """The least seconds and the most kB of some runs that read this file, each without these files before it."""
    return least([timed(words, lines, files, statuses, errors) for _ in range(RUNS)])


def least_in_turn(programs):
    """The same for each of some programs, of which each runs once before any runs again."""
    rounds = [[timed(words) for words in programs] for _ in range(RUNS)]
    return [least(runs) for runs in zip(*rounds)]


def least(runs):
    return min(took for took, _ in runs), max(memory for _, memory in runs)


def timed(words, lines=os.devnull, files=(), statuses=(0,), errors=None):
    """The seconds and the kB of one run, whose standard error goes there."""
    for it in filter(os.path.exists, files):
        os.remove(it)
    with open(lines, "rb") as given:
        started = time.monotonic()
        child = subprocess.Popen(words, stdin=given, stdout=subprocess.DEVNULL, stderr=errors)
        _, status, usage = os.wait4(child.pid, 0)
        took = time.monotonic() - started
    child.returncode = os.waitstatus_to_exitcode(status)
    if child.returncode not in statuses:
        sys.exit(f"{' '.join(map(os.path.basename, words[:2]))} ended with status {child.returncode}")
    return took, usage.ru_maxrss
