"""Names, durations, numbers and addresses in a plant: what check tells of each, the line and kind of the fault or nothing."""
import subprocess
import sys

RESOURCE = "CONFIGURATION C RESOURCE\n{}\nON N END_RESOURCE END_CONFIGURATION"
# The interval on line 3, the priority on line 4.
TASK = "CONFIGURATION C RESOURCE R ON N\nTASK T(INTERVAL:=\n{},PRIORITY\n{});END_RESOURCE END_CONFIGURATION"
# What a bit is bound to on line 5, what a word is bound to on line 6.
BINDS = """\
PROGRAM P VAR_INPUT B : BOOL; W : INT; END_VAR
|
END_PROGRAM
CONFIGURATION C RESOURCE R ON N TASK T(INTERVAL:=T#1s,PRIORITY:=1);PROGRAM A WITH T:P(B:=
{},W:=
{});END_RESOURCE END_CONFIGURATION"""
NAMES = [(name, "") for name in ("R", "_1", "A1", "a_B", "END", "TONE")]
NO_NAMES = [(name, "2: Syntax") for name in ("A__B", "A_", "_", "1A", "A.B", "RETAIN", "true", "Ton", "interval")]
TASKS = [
    (("t#1s500ms", ":= 1_0"), ""),
    (("TIME#2_147_483_647ms", ":=65535"), ""),
    (("T#1ms", ":=0"), ""),
    (("T#2147483648ms", ":=0"), "3: Syntax"),
    (("1s", ":=0"), "3: Syntax"),
    (("T# 1s", ":=0"), "3: Syntax"),
    (("T #1s", ":=0"), "3: Syntax"),
    (("T#1s 5ms", ":=0"), "3: Syntax"),
    (("T#1s", ":=65536"), "4: Syntax"),
    (("T#1s", ":=-1"), "4: Syntax"),
    (("T#1s", ": =0"), "4: Syntax"),
    (("T#1s", ":\n=0"), "4: Syntax"),
    (("T#1s", ":=\n=0"), "5: Syntax"),
]
ADDRESSES = [
    (("%ix01", "%IW65_535"), ""),
    (("% IX1", "%IW0"), "5: Syntax"),
    (("%IX 1", "%IW0"), "5: Syntax"),
    (("%IX", "%IW0"), "5: Syntax"),
    (("%QX1", "%IW0"), "5: Syntax"),
    (("%IX1.2", "%IW0"), "5: Syntax"),
    (("%IX65536", "%IW0"), "5: Syntax"),
    (("%IX0", "%IW65536"), "6: Syntax"),
    (("%IX0", "%IW-1"), "6: Syntax"),
]


def told(text):
    """What check tells first: the line and kind of a fault, or nothing."""
    with open("it.plant", "w", encoding="ascii") as file:
        file.write(text)
    ran = subprocess.run([sys.argv[1], "check", "it.plant"], capture_output=True, text=True)
    if ran.returncode == 1:
        return ran.stderr.split("\n")[0].removeprefix("it.plant:")
    return ran.stderr if ran.returncode == 0 else f"status {ran.returncode}"


for form, rows in ((RESOURCE, [((name,), fault) for name, fault in NAMES + NO_NAMES]), (TASK, TASKS), (BINDS, ADDRESSES)):
    for words, wanted in rows:
        found = told(form.format(*words))
        if found != wanted:
            print(f"{words}: {found!r}, not {wanted!r}")
print("each word was answered")
