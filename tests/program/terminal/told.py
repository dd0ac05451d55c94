"""Work of some seconds tells on standard error how far it is, where that is a terminal, and else nothing."""
import os
import pty
import re
import subprocess
from concurrent.futures import ThreadPoolExecutor

PLC = os.environ["PLC"]
# Two coils that are never on together, two that are as they like, all of which the claim reads, and 20 inputs: 12 states, each
# scanned with 2^20 rows.
MORE = [f"I{number}" for number in range(17)]


def rung(names, symbols):
    return "|  " + "".join(f"{name:9}" for name in names) + "\n" + "+--" + "------".join(symbols) + "\n"


DRAWING = (
    rung(["UP", "DOWN", "STOP", "LIFT"], ["| |", "|/|", "|/|", "( )"])
    + rung(["DOWN", "UP", "STOP", "LOWER"], ["| |", "|/|", "|/|", "( )"])
    + rung(["I0", "M0"], ["| |", "( )"])
    + rung(["I1", "M1"], ["| |", "( )"])
    + rung(["LIFT", "LOWER", "M0", "M1", *MORE[2:], "CLASH"], ["| |"] * (2 + len(MORE)) + ["( )"])
)
ANSWER = b"HOLDS CLASH is never on: 12 states, 12582912 scans\n"
# As much as a drawing may have: a scan takes long.
LARGE = 950 * rung(["A"] * 25 + ["Y"], ["| |"] * 25 + ["( )"])
PLANT = f"""PROGRAM LARGE
VAR_INPUT A : BOOL; END_VAR
VAR_OUTPUT Y : BOOL; END_VAR
{LARGE}END_PROGRAM
CONFIGURATION SLOW
  RESOURCE R ON NODE
    TASK T(INTERVAL := T#1ms, PRIORITY := 1);
    PROGRAM P WITH T : LARGE(A := %IX0);
  END_RESOURCE
END_CONFIGURATION
"""
TIMES = 90000
SCHEDULE = TIMES * "EVAL R.T 1 %IX0=1\n"
LINES = rb"\d+ lines, \d+ a second"
# Of each command its words, a line of how far it is, and what it writes to standard output, where that is little.
WORKS = {
    "verify": (["d.ladder", "--never", "CLASH"], rb"\d+ states, \d+ to go, \d+ scans a second", ANSWER),
    "eval": (["large.ladder", "A=" + 400 * "1", "--show", "--no-warnings"], LINES, None),
    "sim": (["large.plant", "large.schedule"], LINES, None),
    "run": (["large.plant", "--until", str(TIMES), "%IX0=1"], rb"\d+ commands, \d+ a second", None),
}


def all_from(terminal):
    """What was written to a terminal, until its other end was closed."""
    read = b""
    while True:
        try:
            more = os.read(terminal, 65536)
        except OSError:
            return read
        if not more:
            return read
        read += more


def begun(command, errors, output=None):
    """A command, whose standard error is this."""
    words, _line, answer = WORKS[command]
    output = output or (subprocess.DEVNULL if answer is None else subprocess.PIPE)
    return subprocess.Popen([PLC, command, *words], stdin=subprocess.DEVNULL, stdout=output, stderr=errors)


def written_by(command):
    """What is written to standard output and standard error, neither of which is a terminal."""
    with begun(command, subprocess.PIPE) as process:
        return process.communicate()


def written_on_terminal(command, is_all=False):
    """What is written to standard output and standard error, which is a terminal, or to one terminal, if all goes there."""
    reader, writer = pty.openpty()
    with begun(command, writer, writer if is_all else None) as process:
        os.close(writer)
        told = all_from(reader)
        return process.stdout and process.stdout.read(), told


def is_told(command, told):
    return re.fullmatch(rb"(\r%s\x1b\[K)+\r\x1b\[K" % WORKS[command][1], told) is not None


def how_told(command):
    _words, _line, answer = WORKS[command]
    loud, quiet = written_on_terminal(command), written_by(command)
    if is_told(command, loud[1]) and quiet[1] == b"" and loud[0] == quiet[0] == answer:
        return f"{command}: told on a terminal, else nothing"
    return f"{command}: {loud} {quiet}"


def how_cleared():
    """A run whose lines go to the same terminal: the first one stands behind what was told, which is taken away before."""
    _output, told = written_on_terminal("run", is_all=True)
    before, _, lines = told.partition(b"EVAL ")
    return "run: told before its lines" if is_told("run", before) and b"\x1b" not in lines else f"run: {told[:1000]}"


def main():
    for name, text in (("d.ladder", DRAWING), ("large.ladder", LARGE), ("large.plant", PLANT), ("large.schedule", SCHEDULE)):
        with open(name, "w", encoding="ascii") as file:
            file.write(text)
    with ThreadPoolExecutor() as pool:
        cleared = pool.submit(how_cleared)
        for line in pool.map(how_told, WORKS):
            print(line)
        print(cleared.result())


main()
