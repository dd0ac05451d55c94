"""Reads plants of six programs, whose bodies are long enough that several threads draw them.

The fault told is the first from top to bottom, whichever thread ends first.
"""
import subprocess
import sys

ROWS = 1000
MARKED = 500
CONFIGURATION = """CONFIGURATION C
RESOURCE R ON N
TASK K(INTERVAL := T#10ms, PRIORITY := 1);
%sEND_RESOURCE
END_CONFIGURATION
"""


def program(number, marked, nameless):
    rows = ["+" + "-" * 99] * ROWS
    if number in marked:
        rows[MARKED - 1] = "+--*--"
    name = "12" if number in nameless else "P%d" % number
    return "PROGRAM %s\n%s\nEND_PROGRAM\n" % (name, "\n".join(rows))


def plant(marked, nameless):
    programs = [program(number, marked, nameless) for number in range(1, 7)]
    instances = ["PROGRAM I%d WITH K : P%d;\n" % (number, number) for number in range(1, 7)]
    return "".join(programs) + CONFIGURATION % "".join(instances)


def tell(title, marked=(), nameless=()):
    with open("it.plant", "w") as file:
        file.write(plant(marked, nameless))
    ran = subprocess.run([sys.argv[1], "check", "it.plant"], capture_output=True, text=True)
    first = ran.stderr.partition("\n")
    print(title, ran.stdout + first[0] + first[1], sep="\n", end="")


tell("no fault")
tell("a bad mark in 2 and in 5", marked=(2, 5))
tell("a bad mark in 6", marked=(6,))
tell("a bad mark in each", marked=(1, 2, 3, 4, 5, 6))
tell("a bad mark in 3, no name at 4", marked=(3,), nameless=(4,))
tell("a bad mark in 5, no name at 4", marked=(5,), nameless=(4,))
