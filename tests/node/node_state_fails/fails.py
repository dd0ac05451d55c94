"""A node whose journal has room for so many bytes, for each number of bytes; and one whose folder of state is broken before each line.

Each is mended and begun anew on the same folder and journal, and asked what is left. Then the audit shows the journal whole, and all
that was ever answered stands in it.
"""
import collections
import os
import resource
import shutil
import signal
import subprocess
import sys

PLC = sys.argv[1]
WORDS = [PLC, "node", "retained.plant", "R1", "--state", "D", "--journal", "J"]
LINES = ["EVAL R1.TICK 10 %IX0=1", "RESTART R1", "EVAL R1.TICK 10", "HELLO R1 1", "EVAL R1.TICK 10 %IX1=1"]
START = -1
# What is broken, and what lies there while it is: a folder where a file is to be, or a text that no node writes.
UNREADABLE = "x"
KINDS = {
    "temporary file": ("D/R1.tmp", None),
    "number": ("D/R1.inc", None),
    "unreadable number": ("D/R1.inc", UNREADABLE),
    "values": ("D/R1.0.ret", None),
    "unreadable values": ("D/R1.0.ret", UNREADABLE),
    "folder": ("D", UNREADABLE),
}
told, counts = [], collections.Counter()


def write(name, text):
    with open(name, "w", encoding="ascii") as file:
        file.write(text)


def remove(name):
    if os.path.isdir(name):
        shutil.rmtree(name)
    elif os.path.exists(name):
        os.remove(name)


class Breach:
    """What is broken before the line of a place, once, until it is mended."""

    def __init__(self, kind=None, place=None):
        self.name, self.text = KINDS[kind] if kind else (None, None)
        self.place, self.is_there = place, False

    def come(self, place):
        """Breaks it where its place is reached."""
        if place != self.place:
            return
        self.place, self.is_there = None, True
        if os.path.exists(self.name):
            os.rename(self.name, "saved")
        if self.text is None:
            os.mkdir(self.name)
        else:
            write(self.name, self.text)

    def mend(self):
        """Puts back what lay there; what the node has kept since then stays."""
        if not self.is_there:
            return
        self.is_there = False
        if self.text is not None and os.path.isfile(self.name):
            with open(self.name, encoding="ascii") as file:
                if file.read() != self.text:
                    return
        remove(self.name)
        if os.path.exists("saved"):
            os.rename("saved", self.name)


class Node:
    def __init__(self, room):
        def limited():
            if room is not None:
                signal.signal(signal.SIGXFSZ, signal.SIG_IGN)
                resource.setrlimit(resource.RLIMIT_FSIZE, (room, room))

        how = {"stdin": subprocess.PIPE, "stdout": subprocess.PIPE, "stderr": subprocess.DEVNULL, "text": True, "bufsize": 1}
        self.process = subprocess.Popen(WORDS, preexec_fn=limited, **how)
        self.answers = self.line() is not None

    def line(self):
        """The closing line of an answer; None where the node has ended."""
        return self.process.stdout.readline().rstrip("\n") or None

    def ask(self, line):
        self.process.stdin.write(line + "\n")
        answer = self.line()
        self.answers = answer is not None
        return answer

    def end(self):
        """Ends it; its status is 3 where it had stopped."""
        self.process.stdin.close()
        self.process.stdout.close()
        status = self.process.wait()
        if status != (0 if self.answers else 3):
            told.append(f"status {status}")


def live(node, answered, breach):
    """One life: asks the lines that aren't answered yet, as long as it answers."""
    while node.answers and len(answered) < len(LINES):
        line = LINES[len(answered)]
        breach.come(len(answered))
        answer = node.ask(line)
        if answer == "REFUSED Keeper":
            counts[f"{line}: refused"] += 1
            breach.mend()
        elif answer is None:
            counts[f"{line}: stopped"] += 1
        else:
            answered.append(answer)
    node.end()


def lives(room, breach):
    """What is answered in two lives, between which all is mended."""
    answered = []
    breach.come(START)
    node = Node(room)
    if not node.answers:
        counts["the start: stopped"] += 1
    live(node, answered, breach)
    breach.mend()
    if len(answered) < len(LINES):
        live(Node(None), answered, breach)
    if len(answered) < len(LINES):
        told.append(f"not all is answered: {answered}")
    return answered


def try_lives(what, room, breach):
    for name in ("D", "J", "saved"):
        remove(name)
    os.mkdir("D")
    answered = lives(room, breach)
    ran = subprocess.run([PLC, "audit", "retained.plant", "J"], capture_output=True, text=True)
    made = [line.split(" ", 2)[2] for line in ran.stdout.splitlines() if line.startswith("EVAL ")]
    missing = [line for line in answered if line.startswith("EVAL ") and line.split(" ", 2)[2] not in made]
    if missing or ran.returncode != 0 or not ran.stdout.endswith("REPLAY equal\n"):
        told.append(f"{what}: {missing} stand not in {ran.stdout!r} ({ran.returncode})")


def tell_counts():
    print(*(f"{what}: {count}" for what, count in sorted(counts.items())), sep="\n")
    counts.clear()


def main():
    try_lives("nothing fails", None, Breach())
    with open("J", encoding="ascii") as file:
        print(file.read())
    for room in range(os.path.getsize("J")):
        try_lives(f"{room} bytes", room, Breach())
    tell_counts()
    for place in range(START, len(LINES)):
        for kind in KINDS if place != START else KINDS.keys() - {"folder"}:
            try_lives(f"{kind} before {place}", None, Breach(kind, place))
    tell_counts()
    print("\n".join(told[:5]) or "what was answered stands in the audit")


main()
