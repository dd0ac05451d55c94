"""The pair with one text in it replaced by another, and what check then tells: the line and kind of the fault, or nothing."""
import subprocess
import sys

EDITS = [
    # Programs.
    ("PROGRAM COUNT", "PROGRAM 9COUNT", "1: Syntax"),
    ("PROGRAM COUNT", "PROGRAM TON", "1: Syntax"),
    ("UP : BOOL", "UP : BOOLS", "2: Syntax"),
    ("UP : BOOL", "UP BOOL", "2: Syntax"),
    ("UP : BOOL", "UP, : BOOL", "2: Syntax"),
    ("VAR C1 : CTU", "VAR_INPUT C1 : CTU", "4: WrongKind"),
    ("VAR C1 : CTU", "VAR_OUTPUT C1 : ctu", "4: WrongKind"),
    ("N : INT; FULL", "N, n : INT; FULL", "3: NameTwice"),
    ("N : INT; FULL", "N, up : BOOLS; FULL", "3: NameTwice"),
    ("VAR C1 : CTU", "VAR full : CTU", "4: NameTwice"),
    ("PROGRAM WATCH", "PROGRAM count", "12: NameTwice"),
    ("PROGRAM WATCH", "PROGRAM count : ", "12: NameTwice"),
    # Resources.
    ("R2 ON", "r1 ON", "30: NameTwice"),
    ("R2 ON", "R2", "30: Syntax"),
    ("T#10ms", "T#0ms", "27: Syntax"),
    ("T#10ms", "10", "27: Syntax"),
    ("T#10ms", "T#2147483648ms", "27: Syntax"),
    ("PRIORITY := 1", "PRIORITY := 65536", "27: Syntax"),
    ("PRIORITY := 1", "INTERVAL := T#1ms", "27: Syntax"),
    ("TASK SLOW", "TASK SLOW(INTERVAL := T#1s, PRIORITY := 0);\nTASK slow", "32: NameTwice"),
    ("PROGRAM B", "PROGRAM B WITH SLOW : WATCH;\nPROGRAM b", "33: NameTwice"),
    ("WITH SLOW", "WITH FAST", "32: UnknownName"),
    ("WITH FAST", "WITH\nFASTER", "29: UnknownName"),
    (": COUNT", ": COUNTER", "28: UnknownName"),
    # Binds.
    ("UP := %IX0", "UP := %IW0", "28: WrongKind"),
    ("UP := %IX0", "UP := %IX65536", "28: Syntax"),
    ("UP := %IX0", "FULL := %IX0", "28: UnknownName"),
    ("UP := %IX0", "C1 := %IX0", "28: UnknownName"),
    ("UP := %IX0", "UP := %IX0,", "28: Syntax"),
    ("N := R1.A.N", "N := %IX1", "32: WrongKind"),
    ("FULL := R1.A.FULL", "N := R1.A.N", "32: InputBoundTwice"),
    ("FULL := R1.A.FULL", "n := %IX0", "32: InputBoundTwice"),
    ("N := R1.A.N", "N := R1.A", "32: Syntax"),
    # What may be left out or put in.
    ("PAIR", "PAIR", ""),
    ("(UP := %IX0)", "", ""),
    ("(UP := %IX0)", "()", ""),
    ("    PROGRAM A", "PROGRAM C WITH FAST : COUNT; PROGRAM A", ""),
    ("RESOURCE R2", "RESOURCE R3 ON NODE END_RESOURCE RESOURCE R2", ""),
    ("TASK SLOW", "TASK IDLE(PRIORITY := 0, INTERVAL := TIME#1s500ms); TASK SLOW", ""),
    ("VAR_INPUT UP", "VAR END_VAR VAR_INPUT UP", ""),
    ("CONFIGURATION PAIR", "configuration (* a\ncomment *) pair", ""),
    ("R1.A.N", "r1 . A (* of *)\n. n", ""),
    # Bodies.
    ("+--| |------( )", "+--| |--?---( )", "23: Drawing BadMark"),
    ("|  FULL     HIT\n+--| |------( )", "|   C3\n|  +-----+\n|  | TON |\n|  +-----+", "23: Graph Unattached"),
    ("|  FULL     HIT", "|  FULL     FULL", "23: Bind WritesInput"),
    ("|  FULL     HIT", "|  NONE     HIT", "23: Bind UnknownName"),
]


def told(text):
    """What check tells first: the line and kind of a fault, or nothing."""
    with open("it.plant", "w", encoding="utf-8", newline="") as file:
        file.write(text)
    ran = subprocess.run([sys.argv[1], "check", "it.plant", "--no-warnings"], capture_output=True, text=True)
    if ran.returncode == 1:
        return ran.stderr.split("\n")[0].removeprefix("it.plant:")
    return ran.stderr if ran.returncode == 0 else f"status {ran.returncode}"


with open("pair.plant", encoding="ascii") as file:
    pair = file.read()
for old, new, wanted in EDITS:
    assert old in pair
    found = told(pair.replace(old, new, 1))
    if found != wanted:
        print(f"{old!r} by {new!r}: {found!r}, not {wanted!r}")
for text, wanted in ((pair.split("CONFIGURATION")[0], "24: Syntax"), ("", "1: Syntax"), ("CONFIGURATION C\nEND_CONFIGURATION\n", "2: Syntax")):
    if told(text) != wanted:
        print(f"{text!r}: {told(text)!r}, not {wanted!r}")
print("each edit was answered")
