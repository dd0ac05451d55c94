"""Inputs of an evaluation as text: what a program reads of them, or that the line is no event."""
import subprocess
import sys

# Each output is the value of one input.
PLANT = """\
PROGRAM SHOW
VAR_INPUT A, B : BOOL; K, L, M : INT; END_VAR
VAR_OUTPUT BIT1, BIT3 : BOOL; WORD3, WORDLAST, WORD0 : INT; END_VAR
VAR C1, C2, C3 : CTD; ON_IT : BOOL; END_VAR
|  A           BIT1
+--| |---------( )
|  B           BIT3
+--| |---------( )
|             C1
|         +-------+
|         |  CTD  |
+---------|LD    Q|--
|      K--|PV   CV|--WORD3
|         +-------+
|             C2
|         +-------+
|         |  CTD  |
+---------|LD    Q|--
|      L--|PV   CV|--WORDLAST
|         +-------+
|             C3
|         +-------+
|         |  CTD  |
+---------|LD    Q|--
|      M--|PV   CV|--WORD0
|         +-------+
END_PROGRAM
CONFIGURATION C RESOURCE R ON N TASK T(INTERVAL := T#10ms, PRIORITY := 1);
PROGRAM P WITH T : SHOW(A := %IX1, B := %IX3, K := %IW3, L := %IW65535, M := %IW0);
END_RESOURCE END_CONFIGURATION
"""
READ = [
    (" \t%iX1=0_1  %Iw3=-32768\t%IW65535=32767 %IW0=-0 %IX3=00 ", (1, 0, -32_768, 32_767, 0)),
    ("%IX3=1 %IW2=5 %IW3=0_7", (0, 1, 7, 0, 0)),
    (" \t", (0, 0, 0, 0, 0)),
]
REFUSED = [
    "%IX0=2", "%IX0", "=1", "%IX0=", "IX0=1", "%IX0=-0", "%IX0=+1", "%IW0=--1", "%IW0=+1", "%IW0=32768", "%IW0=-32769",
    "%IX65536=1", "%IX0 =1", "%IX0=1=1", "%QX0=1", "%IX0=1 %IX0=0 %IX1=x", "%IX0=1 %IX0=0", "%ix01=1 %IX1=1", "%IW7=1\t%IX7=1 %iw0_7=1",
]


def answer(inputs):
    """The status of an evaluation with these inputs, and the first line that is written or told."""
    with open("one.schedule", "w", encoding="ascii") as file:
        file.write(f"EVAL R.T 10 {inputs}\n")
    ran = subprocess.run([sys.argv[1], "sim", "show.plant", "one.schedule"], capture_output=True, text=True)
    return ran.returncode, (ran.stdout + ran.stderr).split("\n")[0]


with open("show.plant", "w", encoding="ascii") as file:
    file.write(PLANT)
rows = [(inputs, (1, "one.schedule:1: Syntax")) for inputs in REFUSED]
for inputs, values in READ:
    given = "P.BIT1={} P.BIT3={} P.WORD3={} P.WORDLAST={} P.WORD0={}".format(*values)
    rows.append((inputs, (0, f"EVAL 1 R.T 1.1 TAKES - GIVES {given}")))
for inputs, wanted in rows:
    found = answer(inputs)
    if found != wanted:
        print(f"{inputs}: {found}, not {wanted}")
print("each text of inputs was answered")
