"""The field of a node is a FIFO: each writer that goes ends it once, and the next one is read. A file that can't be read ends it too.

One that is made later is read then.
"""
import os
import subprocess
import sys
import time

SECONDS = 20


def node(field):
    words = [sys.argv[1], "node", "far.plant", "R1", "--cycle", "--field", field]
    return subprocess.Popen(words, stdin=subprocess.PIPE, stdout=subprocess.PIPE, text=True)


def told(it, count):
    for _ in range(count):
        print(it.stdout.readline(), end="")


def tell(text, field="field"):
    """A writer of its own, once the node reads; where it hasn't opened the FIFO anew yet, it is tried again."""
    last = time.monotonic() + SECONDS
    while time.monotonic() < last:
        try:
            with os.fdopen(os.open(field, os.O_WRONLY | os.O_NONBLOCK), "w", encoding="ascii") as file:
                file.write(text)
            return
        except OSError:
            time.sleep(0.01)
    raise TimeoutError("nobody reads the field")


def main():
    os.mkfifo("field")
    it = node("field")
    told(it, 1)
    tell("INPUT %IX0=1\nEVAL R1.K 10\nMESSAGE\nRESTART R1\n")
    told(it, 5)
    tell("INPUT %IX0=1\nINPUT %IX0=0")
    told(it, 3)
    it.terminate()
    it.wait()
    for name in ("missing", "."):
        it = node(name)
        told(it, 2)
        it.terminate()
        it.wait()
    it = node("late")
    try:
        told(it, 2)
        os.mkfifo("late")
        tell("INPUT %IX0=1\n", "late")
        told(it, 2)
    finally:
        it.terminate()
        it.wait()


main()
