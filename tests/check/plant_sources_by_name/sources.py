"""Sources of binds, found by name: the line and kind of the fault that check tells, or nothing."""
import subprocess
import sys

# Two programs of eleven lines in all: one input to one output, and inputs of two kinds to outputs of two kinds.
PROGRAMS = """\
PROGRAM FLIP
VAR_INPUT P : BOOL; END_VAR
VAR_OUTPUT Q : BOOL; END_VAR
|  P     Q
+--|/|---( )
END_PROGRAM
PROGRAM PICK
VAR_INPUT A, B : BOOL; N : INT; END_VAR VAR_OUTPUT Y, Z : BOOL; M : INT; END_VAR VAR L : BOOL; END_VAR
|  A     B     Y
+--| |---| |---( )
END_PROGRAM
"""
# The instance of the second resource stands on line 20.
INSTANCE = """\
CONFIGURATION C
RESOURCE R1 ON N1
TASK K(INTERVAL := T#10ms, PRIORITY := 1);
PROGRAM F WITH K : FLIP;
PROGRAM G WITH K : PICK;
END_RESOURCE
RESOURCE R2 ON N2
TASK K(INTERVAL := T#10ms, PRIORITY := 1);
PROGRAM H WITH K : {};
END_RESOURCE
END_CONFIGURATION
"""
# Faults are met in the order of the text, and not of the tasks.
TWO_FAULTS = """\
CONFIGURATION C
RESOURCE R1 ON N1
TASK K1(INTERVAL := T#10ms, PRIORITY := 1);
TASK K2(INTERVAL := T#10ms, PRIORITY := 1);
PROGRAM F WITH K2 : FLIP(P := R1.G.M);
PROGRAM G WITH K1 : PICK(A := R1.X.Q);
END_RESOURCE
END_CONFIGURATION
"""
BINDS = [
    ("FLIP(P := R3.F.Q)", "20: UnknownName"),
    ("FLIP(P := R1.X.Q)", "20: UnknownName"),
    ("FLIP(P := R2.F.Q)", "20: UnknownName"),
    ("FLIP(P := R1.F.X)", "20: UnknownName"),
    ("FLIP(P := R1.F.P)", "20: UnknownName"),
    ("FLIP(P := R1.G.L)", "20: UnknownName"),
    # The first part that isn't found has the line.
    ("FLIP(P :=\nR3.\nX.\nX)", "21: UnknownName"),
    ("FLIP(P :=\nR1.\nX.\nX)", "22: UnknownName"),
    ("FLIP(P :=\nR1.\nF.\nX)", "23: UnknownName"),
    ("FLIP(P :=\nR1.\nG.\nM)", "23: WrongKind"),
    # A source has the kind of its input.
    ("FLIP(P := R1.G.M)", "20: WrongKind"),
    ("PICK(N := R1.F.Q)", "20: WrongKind"),
    ("PICK(N := R1.G.M, B := R1.F.Q)", ""),
    ("flip(p := r1.g.z)", ""),
]


def told(text):
    """What check tells first: the line and kind of a fault, or nothing."""
    with open("it.plant", "w", encoding="ascii") as file:
        file.write(text)
    ran = subprocess.run([sys.argv[1], "check", "it.plant", "--no-warnings"], capture_output=True, text=True)
    if ran.returncode == 1:
        return ran.stderr.split("\n")[0].removeprefix("it.plant:")
    return ran.stderr if ran.returncode == 0 else f"status {ran.returncode}"


for text, wanted in [*((INSTANCE.format(bind), fault) for bind, fault in BINDS), (TWO_FAULTS, "16: WrongKind")]:
    found = told(PROGRAMS + text)
    if found != wanted:
        print(f"{text}: {found!r}, not {wanted!r}")
print("each source was answered")
