"""A journal that goes on in further files isn't gone on with in FILE alone."""
import os
import subprocess
import sys

PLC = sys.argv[1]
EVALS = "".join(f"EVAL R1.FAST {k % 50} %IX0={k % 2}\n" for k in range(300))
SIZE = ["--journal-size", "4096"]
FURTHER = "plc: J: it goes on in further files: give --journal-size, or another name to --journal\n"
told = []


def run(name, *more):
    words = [PLC, "node", "pair.plant", "R1", "--state", "S", "--journal", name, *more]
    done = subprocess.run(words, input=EVALS, capture_output=True, text=True, check=False)
    return done.returncode, done.stdout, done.stderr


def holds(what, is_so):
    if not is_so:
        told.append(what)


def all_files():
    return {name: open(name, "rb").read() for name in os.listdir(".") if name.startswith("J")}


def is_refused():
    """Whether a node without a size is refused, and all files stay as they are."""
    before = all_files()
    return run("J") == (3, "", FURTHER) and all_files() == before


def main():
    os.mkdir("S")
    holds("the journal isn't begun", run("J", *SIZE)[0] == 0 and os.path.exists("J.1"))
    holds("a node without a size goes on", is_refused())

    holds("the row doesn't go on", run("J", *SIZE)[0] == 0)
    files = sorted(all_files())
    audit = subprocess.run([PLC, "audit", "pair.plant", *files], capture_output=True, text=True, check=False)
    holds(f"the row is broken: {audit.stderr}", audit.stdout.endswith("NOJOURNAL R2\nREPLAY of what is shown equal\n") and "UNSHOWN" not in audit.stdout)

    os.rename("J", "kept")
    holds("a node without a size begins beside further files", is_refused())
    os.rename("kept", "J")

    # What others keep under such a name is no further file.
    run("rotated")
    os.rename("rotated", "rotated.1")
    holds("a journal isn't begun beside an earlier one", run("rotated")[0] == 0)
    holds("a journal doesn't go on beside an earlier one", run("rotated")[0] == 0)
    print("\n".join(told) if told else "the row stays whole")


main()
