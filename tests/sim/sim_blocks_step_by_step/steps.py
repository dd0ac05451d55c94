"""The eight blocks step by step, with values taken from the block table by hand.

A plant has a task for each type, whose inputs are the block's bits and number, and one whose output is the preset of the
timers: a timer itself, which is set back and then waits that long. Each table begins with a restart.
"""
import subprocess
import sys

ON, OFF = 1, 0
PROGRAM = """\
PROGRAM {block}_IT
VAR_INPUT {inputs} : BOOL; {given} END_VAR
VAR_OUTPUT {outputs} : BOOL; {value} END_VAR
VAR B : {block}; END_VAR
|             B
|         +--------+
|         |{block:^8}|
{rows}
|         +--------+
END_PROGRAM
"""
PRESET = """\
PROGRAM WAIT
VAR_INPUT GO : BOOL; END_VAR
VAR_OUTPUT P : TIME; END_VAR
VAR B : TON; END_VAR
|                        B
|                   +-------+
|  GO               |  TON  |
+--| |--------------|IN    Q|--
|  T#2147483647ms---|PT   ET|--P
|                   +-------+
END_PROGRAM
"""
# The bits on the left, the value on the left, the bits on the right, the value on the right.
PINS = {
    "SR": (["S1", "R"], None, ["Q1"], None),
    "RS": (["S", "R1"], None, ["Q1"], None),
    "CTU": (["CU", "R"], "PV", ["Q"], "CV"),
    "CTD": (["CD", "LD"], "PV", ["Q"], "CV"),
    "CTUD": (["CU", "CD", "R", "LD"], "PV", ["QU", "QD"], "CV"),
    "TON": (["IN"], "PT", ["Q"], "ET"),
    "TOF": (["IN"], "PT", ["Q"], "ET"),
    "TP": (["IN"], "PT", ["Q"], "ET"),
}
# Latches: the bits, and Q1.
LATCHES = [
    ("SR", [(OFF, OFF, OFF), (ON, ON, ON), (OFF, OFF, ON), (OFF, ON, OFF), (ON, OFF, ON)]),
    ("RS", [(OFF, OFF, OFF), (ON, ON, OFF), (ON, OFF, ON), (OFF, OFF, ON), (OFF, ON, OFF)]),
]
# Counters: PV, the bits, the bits shown, and CV.
COUNTERS = [
    ("CTU", [
        (2, [OFF, OFF], [OFF], 0),
        (2, [ON, OFF], [OFF], 1),
        (2, [ON, OFF], [OFF], 1),
        (2, [OFF, OFF], [OFF], 1),
        (2, [ON, OFF], [ON], 2),
        (3, [ON, OFF], [OFF], 2),
        (-1, [ON, ON], [ON], 0),
    ]),
    # Reset comes before a rise. The memory of CU is set in a step that resets too.
    ("CTU", [
        (1, [ON, OFF], [ON], 1),
        (1, [OFF, OFF], [ON], 1),
        (1, [ON, OFF], [ON], 2),
        (1, [OFF, OFF], [ON], 2),
        (1, [ON, ON], [OFF], 0),
        (1, [ON, OFF], [OFF], 0),
        (1, [OFF, OFF], [OFF], 0),
        (1, [ON, OFF], [ON], 1),
    ]),
    # Up to the end.
    ("CTU", [(32_767, [on, OFF], [OFF], count) for count in range(1, 32_767) for on in (ON, OFF)] + [
        (32_767, [ON, OFF], [ON], 32_767),
        (32_767, [OFF, OFF], [ON], 32_767),
        (32_767, [ON, OFF], [ON], 32_767),
        (32_767, [OFF, OFF], [ON], 32_767),
        (32_767, [ON, ON], [OFF], 0),
    ]),
    ("CTD", [
        (2, [OFF, OFF], [ON], 0),
        (2, [OFF, ON], [OFF], 2),
        (2, [ON, OFF], [OFF], 1),
        (2, [ON, OFF], [OFF], 1),
        (2, [OFF, OFF], [OFF], 1),
        (2, [ON, OFF], [ON], 0),
        (2, [OFF, OFF], [ON], 0),
        (2, [ON, OFF], [ON], -1),
    ]),
    # Load comes before a rise.
    ("CTD", [
        (9, [ON, ON], [OFF], 9),
        (9, [ON, OFF], [OFF], 9),
        (4, [ON, ON], [OFF], 4),
        (-32_768, [OFF, ON], [ON], -32_768),
        (-32_768, [ON, OFF], [ON], -32_768),
    ]),
    ("CTD", [
        (-32_767, [OFF, ON], [ON], -32_767),
        (0, [ON, OFF], [ON], -32_768),
        (0, [OFF, OFF], [ON], -32_768),
        (0, [ON, OFF], [ON], -32_768),
    ]),
    ("CTUD", [
        (2, [ON, ON, OFF, OFF], [OFF, ON], 0),
        (2, [ON, ON, OFF, OFF], [OFF, ON], 0),
        (2, [OFF, OFF, OFF, OFF], [OFF, ON], 0),
        (2, [ON, OFF, OFF, OFF], [OFF, OFF], 1),
        (2, [ON, ON, OFF, OFF], [OFF, ON], 0),
        (2, [OFF, ON, OFF, OFF], [OFF, ON], 0),
        (2, [ON, ON, OFF, OFF], [OFF, OFF], 1),
        (1, [OFF, OFF, OFF, OFF], [ON, OFF], 1),
        (0, [OFF, OFF, ON, OFF], [ON, ON], 0),
    ]),
    # R comes first, then LD; the memories of CU and CD are set beside them.
    ("CTUD", [
        (3, [OFF, OFF, OFF, ON], [ON, OFF], 3),
        (7, [ON, OFF, ON, ON], [OFF, ON], 0),
        (7, [ON, OFF, OFF, OFF], [OFF, ON], 0),
        (7, [ON, ON, OFF, ON], [ON, OFF], 7),
        (7, [ON, ON, OFF, OFF], [ON, OFF], 7),
        (7, [OFF, OFF, OFF, OFF], [ON, OFF], 7),
        (7, [OFF, ON, OFF, OFF], [OFF, OFF], 6),
    ]),
    # Both ends.
    ("CTUD", [
        (32_766, [OFF, OFF, OFF, ON], [ON, OFF], 32_766),
        (0, [ON, OFF, OFF, OFF], [ON, OFF], 32_767),
        (0, [OFF, OFF, OFF, OFF], [ON, OFF], 32_767),
        (0, [ON, OFF, OFF, OFF], [ON, OFF], 32_767),
        (0, [OFF, ON, OFF, OFF], [ON, OFF], 32_766),
    ]),
    ("CTUD", [
        (-32_767, [OFF, OFF, OFF, ON], [ON, ON], -32_767),
        (-32_768, [OFF, ON, OFF, OFF], [ON, ON], -32_768),
        (-32_768, [OFF, OFF, OFF, OFF], [ON, ON], -32_768),
        (-32_768, [OFF, ON, OFF, OFF], [ON, ON], -32_768),
        (0, [ON, OFF, OFF, OFF], [OFF, ON], -32_767),
    ]),
]
# Timers: PT, the time since the last step, IN, Q and ET.
TIMERS = [
    ("TON", [
        (30, 10, OFF, OFF, 0),
        (30, 10, ON, OFF, 0),
        (30, 10, ON, OFF, 10),
        (30, 10, ON, OFF, 20),
        (30, 10, ON, ON, 30),
        (30, 10, ON, ON, 30),
        (30, 10, OFF, OFF, 0),
        (30, 50, ON, OFF, 0),
        (30, 29, ON, OFF, 29),
        (30, 0, ON, OFF, 29),
        (30, 9, ON, ON, 30),
    ]),
    ("TON", [(0, 10, ON, ON, 0), (0, 10, ON, ON, 0), (0, 10, OFF, OFF, 0)]),
    # A new preset.
    ("TON", [
        (100, 40, ON, OFF, 0),
        (100, 40, ON, OFF, 40),
        (100, 40, ON, OFF, 80),
        (50, 40, ON, ON, 50),
        (200, 40, ON, OFF, 90),
        (0, 40, ON, ON, 0),
        (60, 40, ON, OFF, 40),
    ]),
    ("TOF", [
        (20, 10, OFF, OFF, 0),
        (20, 10, ON, ON, 0),
        (20, 10, OFF, ON, 0),
        (20, 10, OFF, ON, 10),
        (20, 10, OFF, OFF, 20),
        (90, 10, OFF, OFF, 20),
        (20, 10, ON, ON, 0),
        (20, 50, ON, ON, 0),
        (20, 50, OFF, ON, 0),
        (20, 15, OFF, ON, 15),
        (20, 15, ON, ON, 0),
    ]),
    ("TOF", [(0, 10, ON, ON, 0), (0, 10, OFF, OFF, 0), (50, 10, OFF, OFF, 0)]),
    # A new preset.
    ("TOF", [
        (100, 30, ON, ON, 0),
        (100, 30, OFF, ON, 0),
        (100, 30, OFF, ON, 30),
        (200, 30, OFF, ON, 60),
        (20, 30, OFF, OFF, 20),
        (500, 30, OFF, OFF, 20),
    ]),
    ("TP", [
        (20, 10, ON, ON, 0),
        (20, 10, OFF, ON, 10),
        (20, 10, ON, OFF, 20),
        (20, 10, ON, OFF, 20),
        (20, 10, OFF, OFF, 0),
        (20, 10, ON, ON, 0),
        (20, 25, OFF, OFF, 20),
        (20, 10, OFF, OFF, 0),
    ]),
    ("TP", [
        (0, 10, ON, OFF, 0),
        (50, 10, ON, OFF, 0),
        (50, 10, OFF, OFF, 0),
        (0, 10, ON, OFF, 0),
        (0, 10, OFF, OFF, 0),
        (50, 10, ON, ON, 0),
    ]),
    # A new preset.
    ("TP", [
        (100, 40, ON, ON, 0),
        (100, 40, ON, ON, 40),
        (150, 40, ON, ON, 80),
        (30, 40, ON, OFF, 30),
        (100, 40, ON, OFF, 30),
        (100, 40, OFF, OFF, 0),
        (100, 40, ON, ON, 0),
        (0, 40, ON, OFF, 0),
    ]),
]


def program(block):
    """A program with one block, all of its pins drawn."""
    left, given, right, value = PINS[block]
    names = [*left, *([given] if given else [])], [*right, *([value] if value else [])]
    rows = []
    for place in range(max(len(it) for it in names)):
        into, out = [it[place] if place < len(it) else "" for it in names]
        line = f"|  {into}\n+--| |----" if place == 0 else f"|{into:>7}--" if into else "|         "
        rows.append(f"{line}|{into:4}{out:>4}|" + (f"--{out}" if out else ""))
    # The contact's name stands beside the block's type.
    name, _, first = rows[0].partition("\n")
    kind = "TIME" if given == "PT" else "INT"
    text = PROGRAM.format(
        block=block, inputs=", ".join(left), outputs=", ".join(right), rows="\n".join([first, *rows[1:]]),
        given=f"{given} : {kind};" if given else "", value=f"{value} : {kind};" if value else "",
    )
    beside = f"|         |{block:^8}|"
    return text.replace(beside, name.ljust(10) + beside[10:])


def plant():
    tasks = ["TASK WAIT(INTERVAL := T#10ms, PRIORITY := 0);", "PROGRAM W WITH WAIT : WAIT(GO := %IX9);"]
    for block, (left, given, _, _) in PINS.items():
        binds = [f"{pin} := %IX{place}" for place, pin in enumerate(left)]
        binds += {"PV": ["PV := %IW0"], "PT": ["PT := R.W.P"], None: []}[given]
        tasks.append(f"TASK {block}_T(INTERVAL := T#10ms, PRIORITY := 0);")
        tasks.append(f"PROGRAM {block}_P WITH {block}_T : {block}_IT({', '.join(binds)});")
    return "\n".join([PRESET + "".join(map(program, PINS)) + "CONFIGURATION BLOCKS RESOURCE R ON NODE", *tasks, "END_RESOURCE END_CONFIGURATION\n"])


def evaluated(block, dt, bits, number=0):
    words = [f"%IX{place}={bit}" for place, bit in enumerate(bits)]
    return f"EVAL R.{block}_T {dt} {' '.join(words)} %IW0={number}"


def given(block, bits, value):
    """What an evaluation of a block's program gives."""
    _, _, right, name = PINS[block]
    shown = [f"{block}_P.{pin}={bit}" for pin, bit in zip(right, bits)]
    return " ".join([*shown, *([f"{block}_P.{name}={value}"] if name else [])])


events, wanted = [], []
for block, rows in LATCHES:
    events.append("RESTART R")
    for *bits, shown in rows:
        events.append(evaluated(block, 10, bits))
        wanted.append(given(block, [shown], None))
for block, rows in COUNTERS:
    events.append("RESTART R")
    for preset, bits, shown, count in rows:
        events.append(evaluated(block, 10, bits, preset))
        wanted.append(given(block, shown, count))
for block, rows in TIMERS:
    events.append("RESTART R")
    for preset, dt, bit, shown, elapsed in rows:
        events += ["EVAL R.WAIT 0 %IX9=0", "EVAL R.WAIT 0 %IX9=1", f"EVAL R.WAIT {preset} %IX9=1"]
        events.append(evaluated(block, dt, [bit]))
        wanted.append(given(block, [shown], f"T#{elapsed}ms"))
with open("blocks.plant", "w", encoding="ascii") as file:
    file.write(plant())
with open("steps.schedule", "w", encoding="ascii") as file:
    file.write("\n".join(events) + "\n")
ran = subprocess.run([sys.argv[1], "sim", "blocks.plant", "steps.schedule"], capture_output=True, text=True)
print(ran.stderr, end="")
found = [line.partition(" GIVES ")[2] for line in ran.stdout.splitlines() if line.startswith("EVAL ") and " R.WAIT " not in line]
for place, (one, other) in enumerate(zip(found, wanted)):
    if one != other:
        print(f"step {place}: {one}, not {other}")
print(f"{len(found)} steps of {len(wanted)}")
