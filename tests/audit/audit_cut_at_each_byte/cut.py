"""Cuts each of two journals at each byte: a beginning of each resource's evaluations is shown, and else what is missing is told."""
import subprocess
import sys

PLC, NAMES = sys.argv[1], ("r1.journal", "r2.journal")
told = []


def audit():
    ran = subprocess.run([PLC, "audit", "pair.plant", *NAMES], capture_output=True, text=True)
    return ran.stdout.splitlines(), ran.returncode


def by_resource(lines):
    made = [line.split(" ", 2)[2] for line in lines if line.startswith("EVAL ")]
    return {name: [it for it in made if it.startswith(name)] for name in ("R1.", "R2.")}


def others(lines):
    return [line for line in lines if not line.startswith("EVAL ")]


def try_cut(name, text, at, whole):
    with open(name, "w", encoding="ascii") as file:
        file.write(text[:at])
    lines, status = audit()
    shown, *unshown, last = by_resource(lines), *others(lines)
    # A file without a whole START is told too.
    kinds = {line.split()[2] for line in unshown if line.startswith("UNSHOWN") and (";" in text[:at] or f" {name}:" not in line)}
    is_beginning = all(shown[it] == whole[it][: len(shown[it])] for it in whole)
    is_told = (status, last) == ((3, "REPLAY of what is shown equal") if unshown else (0, "REPLAY equal"))
    if not (is_beginning and is_told and kinds <= {"Missing", "Waits"}):
        told.append(f"{name} cut at {at}: {status} {lines}")


def main():
    lines, status = audit()
    whole = by_resource(lines)
    print(*whole.values(), others(lines), status, sep="\n")
    for name in NAMES:
        with open(name, encoding="ascii") as file:
            text = file.read()
        for at in range(len(text)):
            try_cut(name, text, at, whole)
        with open(name, "w", encoding="ascii") as file:
            file.write(text)
    print("\n".join(told[:5]) or "whatever is cut off, what stands before it is shown")


main()
