"""UNDECIDED is told only where it must be: a claim that holds is decided with as many states as it is told to have, and isn't with fewer;
one that fails is told with the same schedule from some number of states on, and isn't with fewer."""
import os
import re
import subprocess

PLC = os.environ["PLC"]
INSIDE = "R1.A.INSIDE,R2.O.INSIDE"
HOLD = [
    ["zone.plant", INSIDE],
    ["zone_phases.plant", INSIDE, "--no-restarts"],
    ["forth_and_back.plant", "R2.P.TORN"],
    ["forth_and_back.plant", "R2.P.BACK", "--no-restarts"],
    ["first_and_again.plant", "R1.A.FIRST,R1.B.AGAIN"],
    ["first_middle_last.plant", "R2.L.BACK", "--no-restarts"],
    ["switches.plant", "R1.D.BOTH", "--given", "R1.D.SOUND"],
    ["switches.plant", "R1.D.BOTH", "--given", "R1.D.IDLE"],
]
FAIL = [
    ["zone_asks.plant", INSIDE],
    ["zone_phases.plant", INSIDE],
    ["zone_retained.plant", INSIDE],
    ["forth_and_back.plant", "R2.P.BACK"],
    ["told_again.plant", "R2.B.LATE"],
    ["first_and_again.plant", "R1.B.AGAIN"],
    ["switches.plant", "R2.G.ABOVE", "%IW0=0..3"],
]
MOST = 1_000_000
told = []


def ask(case, *options):
    """The lines of the verdict, and the status."""
    plant, claim, *words = case
    ran = subprocess.run([PLC, "verify", plant, "--never", claim, *words, *options], capture_output=True, text=True)
    return ran.stdout.splitlines()[:-1], ran.returncode


def with_states(case, number):
    return ask(case, "--most-states", str(number))


def undecided(case, number):
    names = case[1].replace(",", ", ")
    return [f"UNDECIDED {names}: more than {number} state{'s' * (number != 1)}"], 5


def expect(case, what, found, wanted):
    if found != wanted:
        told.append(f"{' '.join(case)} with {what}: {found}, not {wanted}")


def try_holding(case):
    whole = ask(case)
    counted = re.search(r": (\d+) states?, \d+ steps?$", whole[0][0])
    states = int(counted[1]) if counted else least_number(case, whole)
    expect(case, f"{states} states", with_states(case, states), whole)
    for fewer in {states - 1, states // 2, 1, 0} - {states}:
        expect(case, f"{fewer} states", with_states(case, fewer), undecided(case, fewer))


def try_failing(case):
    whole = ask(case)
    if whole[1] != 4:
        told.append(f"{' '.join(case)}: status {whole[1]}")
    states = least_number(case, whole)
    for more in (states, states + 1, 2 * states, 10 * states):
        expect(case, f"{more} states", with_states(case, more), whole)
    for fewer in {states - 1, states // 2, 0} - {states, -1}:
        expect(case, f"{fewer} states", with_states(case, fewer), undecided(case, fewer))


def least_number(case, whole):
    """The least number of states with which it is decided so, if it is so with all greater ones."""
    few, enough = -1, MOST
    while enough - few > 1:
        middle = (few + enough) // 2
        few, enough = (few, middle) if with_states(case, middle) == whole else (middle, enough)
    return enough


for it in HOLD:
    try_holding(it)
for it in FAIL:
    try_failing(it)
print(*told[:9] or ["all as wanted"], sep="\n")
