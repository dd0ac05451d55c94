"""Drawings, each with the place and kind of its first fault, or with None where it has none."""
import subprocess
import sys

# A timer without its name.
TIMER = """\
|         +-------+
|  GO     |  TON  |   Y
+--| |----|IN    Q|---( )
| T#30ms--|PT   ET|--E
|         +-------+
"""
UNATTACHED_BOX = """\
|   T1
|  +-----+
|  | TON |
|  +-----+
"""
# A counter whose output pin PV is none.
WRONG_PIN = """\
|           C1
|       +-------+
|       |  CTU  |
+-------|CU   PV|--Wrong
|  Right|pv     |
|       +-------+
"""


def timers(*names):
    """Timers of these names, one below the other."""
    return "".join(f"|             {name}\n{TIMER}" for name in names)


def tall(rows):
    """An upright of so many rows, between a first and a last row that meet the rail."""
    return "+-+-\n" + "| |\n" * rows + "+-+\n"


FAULTS = [
    # Drawings.
    ("|\n+-\t", "2:3: NotAscii"),
    ("+-\r\r\n", "1:3: NotAscii"),
    ("", "1:1: NoLeftRail"),
    ("|\n A\n-", "3:1: NoLeftRail"),
    ("|   T1\n|  +-----+\n|  | ton |", "2:4: BadBox"),
    # The second box has its left side where the first has its right one.
    ("|   A   B\n|  +---+---+\n|  | SR| SR|\n|  +---+---+", "2:8: BadBox"),
    ("|   T1\n|  +-----+\n|  |     |\n|  +-----+", "2:4: NoSource"),
    ("|\n+--*", "2:4: BadMark"),
    ("|  A\n+--(P|", "2:4: BadMark"),
    ("+--|--", "1:4: Crossing"),
    ("|| |--( )", "1:2: Crossing"),
    ("+-+-\n| |", "2:3: Crossing"),
    ("|  --", "1:4: NoSource"),
    ("|     Y\n|    ( )", "2:6: NoSource"),
    ("+--| |--", "1:4: NameMissing"),
    ("|  A     Y", "1:4: StrayName"),
    ("|  A B\n+--| |--", "1:6: StrayName"),
    ("|  LONG_NAME\n+--| |--| |--", "1:4: StrayName"),
    ("|  Ton\n+--| |--", "1:4: StrayName"),
    ("|  A__B\n+--| |--", "1:4: StrayName"),
    ("|  4\n+--| |--", "1:4: StrayName"),
    # A kind that is sought before the others is answered, wherever it is.
    ("|  A\n|  --", "2:4: NoSource"),
    # 240 columns and 2,000 rows.
    ("+" + "-" * 239 + " " * 300, None),
    ("+" * 241, "1:241: TooLarge"),
    ("|\n" * 2000, None),
    ("|\n" * 2000 + "\n", "2001:1: TooLarge"),
    ("|\n" * 9 + "+" * 241 + "\n|" * 2000, "10:241: TooLarge"),
    # Networks that don't meet the left rail. The topmost place counts, and not the one furthest left.
    (UNATTACHED_BOX, "2:4: Unattached"),
    ("|               Y\n|   T1      +--( )\n|  +-----+  |\n|  | TON |  |\n|  |    Q|--+\n|  +-----+", "2:13: Unattached"),
    # Nothing passes from the rail to a side without a pin, or to a pin on another row.
    ("|  T1\n|+-----+\n|| TON |\n|+-----+", "2:2: Unattached"),
    ("|  T1\n|+-----+\n|| TON |\n |IN   |\n|+-----+", "2:2: Unattached"),
    # With a pin there the box is attached, and its missing output is met.
    ("|  T1\n|+-----+\n|| TON |\n||IN   |\n|+-----+", "2:2: PinMissing"),
    (UNATTACHED_BOX * 2, "2:4: Unattached"),
    # A name of two boxes.
    (timers("T1", "T2", "T1_2"), None),
    (timers("T1", "T1", "T2"), "8:11: InstanceTwice"),
    (timers("T1", "t1", "T1"), "8:11: InstanceTwice"),
    (timers("T1", "T2", "t2"), "14:11: InstanceTwice"),
    (timers("T1", "T2", "T1"), "14:11: InstanceTwice"),
    # Networks of 200 rows and more.
    (tall(198), None),
    (tall(199), "1:2: TooTall"),
    (tall(199) + timers("T1", "T1"), "1:2: TooTall"),
    (tall(198) + timers("T1", "T1"), "208:11: InstanceTwice"),
    (tall(199) + UNATTACHED_BOX, "203:4: Unattached"),
    # A name at a pin that isn't on its side is a BOOL.
    (WRONG_PIN, "4:17: UnknownPin"),
    (WRONG_PIN + "|  Wrong   Y\n+--| |----( )\n", "4:17: UnknownPin"),
    (WRONG_PIN + "|  Right   Y\n+--| |----( )\n", "8:4: WrongKind"),
    # A word that is longer than a line of a drawing.
    ("|\n+--( )\n" + "x" * 241, "3:241: TooLarge"),
]


def told(drawing):
    """The place and kind that the program tells, or None."""
    with open("drawing.ladder", "w", encoding="ascii", newline="") as file:
        file.write(drawing)
    ran = subprocess.run([sys.argv[1], "eval", "drawing.ladder", "--no-warnings"], capture_output=True, text=True)
    if ran.returncode == 0 and not ran.stderr:
        return None
    return ran.stderr.split("\n")[0].removeprefix("drawing.ladder:") if ran.returncode == 1 else f"status {ran.returncode}"


for drawing, fault in FAULTS:
    found = told(drawing)
    if found != fault:
        print(f"{found}, not {fault}:\n{drawing[:600]}")
print("each drawing was answered")
