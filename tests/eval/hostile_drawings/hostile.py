"""Cuts each drawing of examples/ at each byte, and replaces each character of it by others.

The program must read what comes out, or refuse it by the kind and place of a fault; want of memory is no answer.
"""
import os
import re
import subprocess
import sys
import tempfile
from concurrent.futures import ThreadPoolExecutor

ROOT = os.path.dirname(sys.argv[1])
sys.path.append(os.path.join(ROOT, "run"))
sys.dont_write_bytecode = True
from shipped import newest_program

PROGRAM = newest_program()
OTHERS = "|+-()/PNX"
KINDS = (
    "NotAscii TooLarge NoLeftRail BadBox BadMark Crossing NoSource NameMissing StrayName "
    "Unattached TooTall InstanceTwice UnknownName WrongKind WritesInput UnknownPin PinMissing LiteralOutOfRange"
)
FAULT = re.compile(r"drawing:[0-9]+:[0-9]+: (%s)\n" % KINDS.replace(" ", "|"))


def changed(text):
    for at in range(len(text)):
        yield text[:at]
        for other in OTHERS:
            if other != text[at]:
                yield text[:at] + other + text[at + 1 :]


def unanswered(texts):
    """The texts of which the program says something else."""
    found = []
    with tempfile.TemporaryDirectory() as place:
        for text in texts:
            with open(os.path.join(place, "drawing"), "w", encoding="ascii", newline="") as file:
                file.write(text)
            ran = subprocess.run([PROGRAM, "eval", "drawing", "--no-warnings"], cwd=place, capture_output=True, text=True)
            is_read = ran.returncode == 0 and ran.stdout.count("\n") == 1 and not ran.stderr
            is_refused = ran.returncode == 1 and not ran.stdout and FAULT.match(ran.stderr)
            if not (is_read or is_refused):
                found.append(f"status {ran.returncode}, {ran.stderr!r}: {text!r}")
    return found


def main():
    examples = os.path.join(ROOT, "examples")
    texts = []
    for name in sorted(os.listdir(examples)):
        if name.endswith(".ladder"):
            with open(os.path.join(examples, name), encoding="ascii", newline="") as file:
                texts += changed(file.read())
    workers = 4
    with ThreadPoolExecutor(workers) as pool:
        found = sum(pool.map(unanswered, [texts[at::workers] for at in range(workers)]), [])
    print(*found[:10], sep="\n", end="\n" if found else "")
    print("each drawing was answered" if texts and not found else f"{len(found)} drawings weren't answered")


main()
