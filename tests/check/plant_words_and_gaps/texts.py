"""How the text of a plant is cut into words: texts, and what check tells of each, the line and kind of the fault or nothing."""
import subprocess
import sys

READ = ""
NO_LEFT_RAIL = "Drawing NoLeftRail"
TEXTS = [
    # Gaps are blanks, tabs, line ends and comments.
    ("CONFIGURATION\t \r\n\nC RESOURCE R ON N END_RESOURCE END_CONFIGURATION", READ),
    ("CONFIGURATION\t \r\n\n;", "3: Syntax"),
    ("CONFIGURATION(* b\n * ) *** *)C RESOURCE R ON N END_RESOURCE END_CONFIGURATION", READ),
    ("CONFIGURATION(* b\n * ) *** *);", "2: Syntax"),
    ("(*)*)CONFIGURATION C RESOURCE R ON N END_RESOURCE END_CONFIGURATION", READ),
    ("(* \u00e9 *)CONFIGURATION C RESOURCE R ON N END_RESOURCE END_CONFIGURATION", READ),
    ("CONFIGURATIONC RESOURCE R ON N END_RESOURCE END_CONFIGURATION", "1: Syntax"),
    ("CONFIGURATION C RESOURCE\nR\u00e9 ON N END_RESOURCE END_CONFIGURATION", "2: Syntax"),
    ("CONFIGURATION C RESOURCE\rR ON N END_RESOURCE END_CONFIGURATION", "1: Syntax"),
    ("CONFIGURATION C RESOURCE R\r\r\nON N END_RESOURCE END_CONFIGURATION", "1: Syntax"),
    # A text ends on its last line.
    ("", "1: Syntax"),
    ("CONFIGURATION", "1: Syntax"),
    ("CONFIGURATION C\n", "1: Syntax"),
    ("CONFIGURATION C\n\n", "2: Syntax"),
    ("CONFIGURATION C\n\r", "2: Syntax"),
    ("CONFIGURATION C RESOURCE R ON N END_RESOURCE\nEND_CONFIGURATION\r", READ),
    ("CONFIGURATION C RESOURCE R ON N END_RESOURCE\nEND_CONFIGURATION\n\r", READ),
    ("CONFIGURATION C RESOURCE R ON N END_RESOURCE\nEND_CONFIGURATION\r\r", "2: Syntax"),
    ("CONFIGURATION C RESOURCE R ON N END_RESOURCE\nEND_CONFIGURATION C\n", "2: Syntax"),
    ("CONFIGURATION (* C\nRESOURCE\n", "2: Syntax"),
    ("CONFIGURATION (*)\nC", "2: Syntax"),
    ("CONFIGURATION C RESOURCE R ON N END_RESOURCE END_CONFIGURATION (* C\n*", "2: Syntax"),
    ("CONFIGURATION (", "1: Syntax"),
    ("CONFIGURATION (\n\nC", "1: Syntax"),
    # A body begins on the next line.
    ("PROGRAM A", "1: Syntax"),
    ("PROGRAM A\n", "1: Syntax"),
    ("PROGRAM A x\n|\nEND_PROGRAM\n", "1: Syntax"),
    ("PROGRAM A (* x\n*)\n|\nEND_PROGRAM\n", "1: Syntax"),
    ("PROGRAM A (* x\n|\n", "1: Syntax"),
    ("PROGRAM A\nEND_PROGRAM\n", f"2: {NO_LEFT_RAIL}"),
    ("PROGRAM A (* x *) \t\r\n\n\nEND_PROGRAM", f"2: {NO_LEFT_RAIL}"),
    ("PROGRAM A VAR END_VAR\n(* c\n*) var_input END_VAR\n(* d *)\n|\nEND_PROGRAM", "6: Syntax"),
    ("PROGRAM A\n(* x\nEND_PROGRAM\n*)", f"2: {NO_LEFT_RAIL}"),
    ("PROGRAM A\n|\n|\n(* x *)\nEND_PROGRAM\n", "5: Syntax"),
    # A body ends before its last line.
    ("PROGRAM A\n|\n", "2: Syntax"),
    ("PROGRAM A\n|\nEND_PROGRAM CONFIGURATION C\nRESOURCE R ON N END_RESOURCE END_CONFIGURATION", "4: Syntax"),
    ("PROGRAM A\r\n|\r\nEND_PROGRAM\r\nCONFIGURATION C RESOURCE R ON N END_RESOURCE END_CONFIGURATION\r\n", READ),
    ("PROGRAM A VAR END_VAR (* c *) \r\n|\n (* d *) end_program (* e\n*) CONFIGURATION C RESOURCE R ON N END_RESOURCE END_CONFIGURATION", READ),
    ("PROGRAM A VAR END_VAR (* c *) \r\n|\n (* d *) end_program (* e\n*) ;", "4: Syntax"),
    ("PROGRAM A\n|\nEND_PROGRAM\n*)", "4: Syntax"),
    ("PROGRAM A\n|\nEND_PROGRAM (* a\nb", "4: Syntax"),
    ("PROGRAM A\n|\nEND_PROGRAM x\nxEND_PROGRAM\nEND_PROGRAM\n", f"3: {NO_LEFT_RAIL}"),
    ("PROGRAM A\n|\nxEND_PROGRAM\nEND_PROGRAM\n", f"3: {NO_LEFT_RAIL}"),
    ("PROGRAM A\n|\n(* a\n*) END_PROGRAM\n", "4: Syntax"),
    ("PROGRAM A\n|\nEND_PROGRAM\r\r\n", "3: Syntax"),
    ("PROGRAM A\n|  x\n\u00e9\r\nEND_PROGRAM\nPROGRAM b", "3: Drawing NotAscii"),
]


def told(text):
    """What check tells first: the line and kind of a fault, or nothing."""
    with open("it.plant", "w", encoding="utf-8", newline="") as file:
        file.write(text)
    ran = subprocess.run([sys.argv[1], "check", "it.plant"], capture_output=True, text=True)
    if ran.returncode == 1:
        return ran.stderr.split("\n")[0].removeprefix("it.plant:")
    return ran.stderr if ran.returncode == 0 else f"status {ran.returncode}"


for text, wanted in TEXTS:
    found = told(text)
    if found != wanted:
        print(f"{text!r}: {found!r}, not {wanted!r}")
print("each text was answered")
