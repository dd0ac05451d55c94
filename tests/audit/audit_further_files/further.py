"""The files of a journal that goes on, in any order, are audited as one; one that is missing, exchanged or changed is told."""
import os
import random
import subprocess
import sys

PLC = sys.argv[1]
MISSING = "it goes on from a file that isn't given, or was changed"
CHANGED = "or the number here was changed"
EVALS = "".join(f"EVAL R1.FAST {k % 50} %IX0={k % 2}\n" for k in range(600))
told = []


def plc(*words, lines=""):
    done = subprocess.run([PLC, *words], input=lines, capture_output=True, text=True, check=False)
    return done.returncode, done.stdout, done.stderr


def audit(files):
    return plc("audit", "pair.plant", "R2", *files)


def holds(what, is_so):
    if not is_so:
        told.append(what)


def why(files, file):
    """What is told of a file that goes on from none that is given."""
    front = f"plc: {file}:1: "
    return [line[len(front) :] for line in audit(files)[2].splitlines() if line.startswith(front)]


def is_told(files, file):
    """Whether a file is told as one that goes on from none that is given."""
    status, lines, message = audit(files)
    last = lines.splitlines()[-1]
    return status == 3 and f"UNSHOWN {file}:1 Syntax\n" in lines and f"{file}:1: " in message and last == "REPLAY of what is shown equal"


plc("node", "pair.plant", "R2", "--journal", "R2", lines="EVAL R2.SLOW 5\n")
plc("node", "pair.plant", "R1", "--journal", "one", lines=EVALS)
plc("node", "pair.plant", "R1", "--journal", "cut", "--journal-size", "4096", lines=EVALS)
files = ["cut", *(f"cut.{k}" for k in range(1, 9) if os.path.exists(f"cut.{k}"))]
wanted = audit(["one"])
holds("one file isn't shown", wanted[0] == 0)
for seed in range(6):
    shuffled = random.Random(seed).sample(files, len(files))
    holds(f"{shuffled} is audited otherwise", audit(shuffled) == wanted)

for k in range(len(files) - 1):
    rest = files[:k] + files[k + 1 :]
    holds(f"{files[k]} isn't missed", is_told(rest, files[k + 1]))
holds("the last one is missed", audit(files[:-1])[0] == 0)

holds("what is missed is told otherwise", why(files[1:], "cut.1") == [MISSING])
for k in range(2, len(files)):
    holds(f"of cut.{k} another cause is told", why(files[1:], f"cut.{k}") == [f"it goes on from cut.{k - 1}, which goes on from none that is given"])
with open("cut.2", "rb") as opened:
    further = opened.read()
with open("twice", "wb") as opened:
    opened.write(further)
with open("fork", "wb") as opened:
    opened.write(further + b"EVAL R1.FAST 1;\n")
for given in (files, files[2:]):
    for name in ("cut.2", "twice"):
        holds(f"{name} isn't told as given before", "it was given before, as cut.2" in why([*given, name], name))
    holds("what goes on from the same file isn't told", is_told([*given, "fork"], "fork"))
holds("of what goes on from the same file another cause is told", why([*files, "fork"], "fork") == [f"another file goes on from cut.1, {CHANGED}"])
with open("fork", "wb") as opened:
    opened.write(further.replace(b"CONTINUES 2 ", b"CONTINUES 7 "))
holds("of a changed number another cause is told", why([*files[:2], "fork", *files[3:]], "fork") == [f"another file goes on from cut.1, {CHANGED}"])

for k, file in enumerate(files[:-1]):
    with open(file, "rb") as opened:
        text = opened.read()
    for place in random.Random(k).sample(range(len(text)), 20):
        with open(file, "wb") as opened:
            opened.write(text[:place] + bytes([text[place] ^ 1]) + text[place + 1 :])
        holds(f"byte {place} of {file} isn't missed", is_told(files, files[k + 1]) or is_told(files, file))
    with open(file, "wb") as opened:
        opened.write(text)

os.rename("cut.1", "kept")
os.rename("cut.2", "cut.1")
os.rename("kept", "cut.2")
holds("names count", audit(files) == wanted)

with open("cut.1", "ab") as opened:
    opened.write(b"EVAL R1.FAST 1;\n")
holds("a line more isn't missed", is_told(files, "cut.3"))

print("\n".join(told) if told else "all is told")
