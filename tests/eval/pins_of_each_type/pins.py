"""Boxes of each type with one pin to be judged: whether it is a pin of the type on that side, and whether of a BOOL or of a value."""
import subprocess
import sys

LATCHES, COUNTERS, TIMERS = ["SR", "RS"], ["CTU", "CTD", "CTUD"], ["TP", "TON", "TOF"]
TYPES = [*LATCHES, *COUNTERS, *TIMERS]
LEFT_BITS = {"SR": ["S1", "R"], "RS": ["S", "R1"], "CTU": ["CU", "R"], "CTD": ["CD", "LD"], "CTUD": ["CU", "CD", "R", "LD"], **dict.fromkeys(TIMERS, ["IN"])}
RIGHT_BITS = {**dict.fromkeys(LATCHES, ["Q1"]), "CTU": ["Q"], "CTD": ["Q"], "CTUD": ["QU", "QD"], **dict.fromkeys(TIMERS, ["Q"])}
LEFT_VALUES = {**dict.fromkeys(LATCHES, []), **dict.fromkeys(COUNTERS, ["PV"]), **dict.fromkeys(TIMERS, ["PT"])}
RIGHT_VALUES = {**dict.fromkeys(LATCHES, []), **dict.fromkeys(COUNTERS, ["CV"]), **dict.fromkeys(TIMERS, ["ET"])}
NAMES = ["S1", "S", "R", "R1", "Q1", "CU", "CD", "LD", "PV", "Q", "QU", "QD", "CV", "IN", "PT", "ET", "IN1", "PX", "S2"]


def box(block, left, right):
    """A box with a line from the rail to its left pin, and one from its right pin."""
    line = "--" if right else "  "
    return f"|     B\n|  +--------+\n|  |{block:^8}|\n+--|{left:4}{right:>4}|{line}\n|  +--------+\n".replace("  \n", "\n")


def answer(drawing):
    """The place and kind of the fault that is told, or nothing."""
    with open("drawing.ladder", "w", encoding="ascii") as file:
        file.write(drawing)
    ran = subprocess.run([sys.argv[1], "eval", "drawing.ladder"], capture_output=True, text=True)
    return ran.stderr.split("\n")[0].removeprefix("drawing.ladder:") if ran.returncode else ""


def judge(drawing, wanted):
    found = answer(drawing)
    if found != wanted:
        print(f"{found!r}, not {wanted!r}:\n{drawing}")


for block in TYPES:
    for name in NAMES:
        for spelled in (name, name.lower()):
            # The line of a left pin: a pin of a value takes none; without a right pin a box isn't whole.
            fault = "2:4: PinMissing" if name in LEFT_BITS[block] else "4:4: WrongKind" if name in LEFT_VALUES[block] else "4:4: UnknownPin"
            judge(box(block, spelled, ""), fault)
            fault = "" if name in RIGHT_BITS[block] else "4:13: WrongKind" if name in RIGHT_VALUES[block] else "4:13: UnknownPin"
            judge(box(block.lower(), LEFT_BITS[block][0], spelled), fault)
print("each pin was answered")
