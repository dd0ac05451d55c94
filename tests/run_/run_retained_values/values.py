"""Runs a plant with three retained variables, an INT, a TIME and a BOOL, over a file with each of these texts."""
import os
import subprocess
import sys

PLC = sys.argv[1]
WORDS = [PLC, "run", "it.plant", "--until", "10", "--paced", "--state", "D"]

# The lines of the file, and the outputs N, FRESH (whether the TIME is T#0ms) and SET of the first evaluation.
READABLE = [
    ("P.COUNT=0 P.TIMED=T#0ms P.SEEN=0", (0, 1, 0)),
    ("P.COUNT=7 P.TIMED=T#1ms P.SEEN=1", (7, 0, 1)),
    ("P.COUNT=-1 P.TIMED=T#30ms P.SEEN=0", (-1, 0, 0)),
    ("P.COUNT=32767 P.TIMED=T#2147483647ms P.SEEN=0", (32767, 0, 0)),
    ("P.COUNT=-32768 P.TIMED=T#4294967295ms P.SEEN=1", (-32768, 0, 1)),
]
UNREADABLE = [
    # Lines left out, put in, or in another order.
    "",
    "P.COUNT=0",
    "P.COUNT=0 P.TIMED=T#0ms",
    "P.TIMED=T#0ms P.SEEN=0",
    "P.COUNT=0 P.SEEN=0 P.TIMED=T#0ms",
    "P.TIMED=T#0ms P.SEEN=0 P.COUNT=0",
    "P.COUNT=0 P.COUNT=0 P.TIMED=T#0ms P.SEEN=0",
    "P.COUNT=0 P.TIMED=T#0ms P.SEEN=0 P.SEEN=0",
    "P.COUNT=0 P.TIMED=T#0ms P.SEEN=0 P.N=0",
    # Another name.
    "P.Count=0 P.TIMED=T#0ms P.SEEN=0",
    "p.COUNT=0 P.TIMED=T#0ms P.SEEN=0",
    "P.N=0 P.TIMED=T#0ms P.SEEN=0",
    # The value of another kind.
    "P.COUNT=T#0ms P.TIMED=T#0ms P.SEEN=0",
    "P.COUNT=0 P.TIMED=0 P.SEEN=0",
    "P.COUNT=0 P.TIMED=T#0ms P.SEEN=FALSE",
    # Other forms, and beyond the limits.
    "P.COUNT=-0 P.TIMED=T#0ms P.SEEN=0",
    "P.COUNT=00 P.TIMED=T#0ms P.SEEN=0",
    "P.COUNT=-07 P.TIMED=T#0ms P.SEEN=0",
    "P.COUNT=+7 P.TIMED=T#0ms P.SEEN=0",
    "P.COUNT=1_0 P.TIMED=T#0ms P.SEEN=0",
    "P.COUNT=- P.TIMED=T#0ms P.SEEN=0",
    "P.COUNT=32768 P.TIMED=T#0ms P.SEEN=0",
    "P.COUNT=-32769 P.TIMED=T#0ms P.SEEN=0",
    "P.COUNT=4294967296 P.TIMED=T#0ms P.SEEN=0",
    "P.COUNT=0 P.TIMED=t#5ms P.SEEN=0",
    "P.COUNT=0 P.TIMED=T#5MS P.SEEN=0",
    "P.COUNT=0 P.TIMED=TIME#5ms P.SEEN=0",
    "P.COUNT=0 P.TIMED=T#1s P.SEEN=0",
    "P.COUNT=0 P.TIMED=T#1s0ms P.SEEN=0",
    "P.COUNT=0 P.TIMED=T#05ms P.SEEN=0",
    "P.COUNT=0 P.TIMED=T#-5ms P.SEEN=0",
    "P.COUNT=0 P.TIMED=T#ms P.SEEN=0",
    "P.COUNT=0 P.TIMED=T#5 P.SEEN=0",
    "P.COUNT=0 P.TIMED=T#4294967296ms P.SEEN=0",
    "P.COUNT=0 P.TIMED=T#18446744073709551616ms P.SEEN=0",
    "P.COUNT=0 P.TIMED=T#0ms P.SEEN=-1",
]


def answer(text):
    """What is answered to a file, and what the file holds then."""
    with open("D/R1.0.ret", "w", encoding="ascii", newline="") as file:
        file.write(text)
    ran = subprocess.run(WORDS, capture_output=True, text=True)
    with open("D/R1.0.ret", encoding="ascii", newline="") as file:
        return ran.returncode, ran.stdout.partition(" GIVES ")[2], file.read()


def main():
    os.mkdir("D")
    wrong = []
    for listed, (n, fresh, is_set) in READABLE:
        # Without inputs the counter and the timer that are stored begin at 0.
        left = f"P.COUNT=0\nP.TIMED=T#0ms\nP.SEEN={is_set}\n"
        found = answer(listed.replace(" ", "\n") + "\n")
        if found != (0, f"P.N={n} P.FRESH={fresh} P.SET={is_set}\nREPLAY equal\n", left):
            wrong.append(f"{listed}: {found}")
    for listed in UNREADABLE:
        text = listed.replace(" ", "\n") + "\n"
        found = answer(text)
        if found != (3, "", text):
            wrong.append(f"{listed}: {found}")
    print("\n".join(wrong) or "each text has its answer")


main()
