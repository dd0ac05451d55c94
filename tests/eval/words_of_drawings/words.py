"""Words at pins and at contacts: the value of each, the kind of its fault, or that it names a variable."""
import subprocess
import sys

COUNTER = """\
|                                  C1
|                              +-------+
|  LOAD                        |  CTD  |
+--| |-------------------------|LD    Q|--
|{word:>30}|PV   CV|--VALUE
|                              +-------+
"""
TIMER = """\
|                                  T1
|                              +-------+
|  LOAD                        |  TON  |
+--| |-------------------------|IN    Q|--
|{word:>30}|PT   ET|--VALUE
|                              +-------+
"""
CONTACT = """\
|  {word}
+--| |--
"""
NUMBERS = [
    ("0", 0),
    ("7", 7),
    ("32767", 32_767),
    ("32768", "LiteralOutOfRange"),
    ("32_767", 32_767),
    ("000000000000000000000007", 7),
    ("18446744073709551615", "LiteralOutOfRange"),
    ("18446744073709551616", "LiteralOutOfRange"),
    ("99999999999999999999999999", "LiteralOutOfRange"),
    ("1_0", 10),
    ("1__0", "StrayName"),
    ("1_", "StrayName"),
    ("1a", "StrayName"),
    # A name, whose value is 0.
    ("_1", 0),
]
DURATIONS = [
    ("T#30ms", 30),
    ("T#1s500ms", 1_500),
    ("TIME#0ms", 0),
    ("time#1h", 3_600_000),
    ("t#1D_2h3M_4s5Ms", 93_784_005),
    ("T#1_000ms", 1_000),
    ("T#90s", 90_000),
    ("T#2147483647ms", 2_147_483_647),
    ("T#2147483648ms", "LiteralOutOfRange"),
    ("T#24d20h31m23s647ms", 2_147_483_647),
    ("T#24d20h31m23s648ms", "LiteralOutOfRange"),
    ("T#99999999999999999999d", "LiteralOutOfRange"),
    ("T#1s2s", "StrayName"),
    ("T#500ms1s", "StrayName"),
    ("T#1s__5ms", "StrayName"),
    ("T#1s_", "StrayName"),
    ("T#_1s", "StrayName"),
    ("T#1.5s", "StrayName"),
    ("T#1", "StrayName"),
    ("T#", "StrayName"),
    ("1s", "StrayName"),
    ("10", "WrongKind"),
]
NAMES = [
    ("START", 0),
    ("_a1", 0),
    ("A_B", 0),
    ("TONE", 0),
    ("A__B", "StrayName"),
    ("A_", "StrayName"),
    ("1A", "StrayName"),
    ("A.B", "UnknownName"),
    ("ton", "StrayName"),
    ("End_Var", "StrayName"),
    ("priority", "StrayName"),
]


def answer(drawing, words):
    """The kind of the fault, or the last value that is written last."""
    with open("drawing.ladder", "w", encoding="ascii") as file:
        file.write(drawing)
    ran = subprocess.run([sys.argv[1], "eval", "drawing.ladder", *words], capture_output=True, text=True)
    if ran.returncode:
        return ran.stderr.split("\n")[0].split()[-1]
    return int(ran.stdout.split("=")[-1].strip().removeprefix("T#").removesuffix("ms"))


for drawing, words, rows in (
    (COUNTER, ["LOAD=1"], NUMBERS),
    (COUNTER, ["LOAD=1"], [("T#1s", "WrongKind")]),
    (TIMER, ["LOAD=11", "--dt", "4294967295"], DURATIONS),
    (CONTACT, [], NAMES),
):
    for word, wanted in rows:
        found = answer(drawing.format(word=word), words)
        if found != wanted:
            print(f"{word}: {found}, not {wanted}")
print("each word was answered")
