"""Claims about hundreds of rungs, each asked alone: with what it needs it is decided at once."""
import os
import subprocess
import sys

PLC = os.environ["PLC"]
sys.path.append(os.path.join(os.path.dirname(PLC), "bench"))
sys.dont_write_bytecode = True
from drawings import row
from plants import rung

RUNGS = 400
PAIRS = 200
SECONDS = 20
told = []


def write(name, rungs):
    with open(name, "w", encoding="ascii") as file:
        file.write("\n".join(rungs) + "\n")


def ask(drawing, claim, wanted, status=0):
    how = {"stdin": subprocess.DEVNULL, "capture_output": True, "text": True, "timeout": SECONDS}
    found = subprocess.run([PLC, "verify", drawing, "--never", claim], **how)
    if (found.stdout, found.returncode) != (wanted, status):
        told.append(f"{drawing}: {claim}: status {found.returncode}, {found.stdout[:200]!r}, not {wanted[:200]!r}")


def try_plant_of_real_size():
    """The rungs of its programs. Each coil is on where A is and B isn't, and reads the coil before; behind them a claim for each."""
    coils = [f"V{it:03}" for it in range(RUNGS)]
    write("rungs.ladder", [*map(rung, range(RUNGS)), *(row(it, "B", f"NEVER{it}") for it in coils)])
    for number, name in list(enumerate(coils))[::3]:
        ask("rungs.ladder", f"NEVER{name}", f"HOLDS NEVER{name} is never on: 2 states, 8 scans, {number + 2} of {2 * RUNGS} networks\n")
    values = ["A=1", "B=0", *(f"{it}=1" for it in coils), *(f"NEVER{it}=0" for it in coils)]
    for name in coils[::20]:
        ask("rungs.ladder", name, f"FAILS {name} is on after 1 scan\nplc eval rungs.ladder A=1 B=0\n{' '.join(values)}\n", status=4)


def drives(number, is_apart):
    """Two drives, each with a push button for on and one for off, that aren't on together; but for a slip of the second one."""
    return [
        row(f"ON{number}", f"/OFF{number}", f"/DOWN{number}", f"UP{number}"),
        row(f"START{number}", f"/STOP{number}", *([f"/UP{number}"] if is_apart else []), f"DOWN{number}"),
        row(f"UP{number}", f"DOWN{number}", f"BOTH{number}"),
    ]


def try_drives():
    """Many drives with 800 inputs in all. Of some the second one doesn't wait for the first."""
    slips = range(0, PAIRS, 40)
    write("drives.ladder", [it for number in range(PAIRS) for it in drives(number, number not in slips)])
    for number in range(PAIRS):
        if number not in slips:
            ask("drives.ladder", f"BOTH{number}", f"HOLDS BOTH{number} is never on: 3 states, 48 scans, 3 of {3 * PAIRS} networks\n")
    for number in slips:
        ask("drives.ladder", f"BOTH{number}", run_of_slip(number, slips), status=4)


def run_of_slip(number, slips):
    """The run of one scan in which both are switched on, and nothing else is."""
    names = [f"{it}{k}" for k in range(PAIRS) for it in ("ON", "OFF", "DOWN", "UP", "START", "STOP", "BOTH")]
    on = {f"{it}{number}" for it in ("ON", "START", "UP", "DOWN", "BOTH")}
    inputs = [it for it in names if not it.startswith(("DOWN", "UP", "BOTH"))]
    words, values = (" ".join(f"{it}={int(it in on)}" for it in some) for some in (inputs, names))
    return f"FAILS BOTH{number} is on after 1 scan\nplc eval drives.ladder {words}\n{values}\n"


try_plant_of_real_size()
try_drives()
print(*told[:9] or ["all as wanted"], sep="\n")
