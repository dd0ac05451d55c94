"""A second node on a folder of state, or on a journal, that another one uses is refused, and nothing is raised or written."""
import os
import subprocess
import sys

PLC = sys.argv[1]


def begin(*words):
    return subprocess.Popen([PLC, "node", "pair.plant", "R1", *words], stdin=subprocess.PIPE, stdout=subprocess.PIPE, text=True)


def try_second(words, unchanged):
    first = begin(*words)
    while first.stdout.readline() != f"START R1 1\n":
        pass
    with open(unchanged, encoding="ascii") as file:
        before = file.read()
    second = begin(*words)
    print(second.communicate("EVAL R1.FAST 10\n")[0].splitlines(), second.returncode)
    with open(unchanged, encoding="ascii") as file:
        print("as it was" if file.read() == before else "it was changed")
    print(first.communicate("EVAL R1.FAST 10\n")[0].splitlines()[-1], first.returncode)


def main():
    os.mkdir("D")
    try_second(["--state", "D"], "D/R1.inc")
    try_second(["--journal", "J"], "J")
    # Once it has ended, the next one begins.
    for words in (["--state", "D"], ["--journal", "J"]):
        print(begin(*words).communicate("")[0].splitlines()[-1])


main()
