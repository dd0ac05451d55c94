"""What a node does where its folder of state can't be read or written any more."""
import os
import subprocess
import sys

WORDS = [sys.argv[1], "node", "retained.plant", "R1", "--state", "D", "--journal", "J"]


class Node:
    def __init__(self):
        self.process = subprocess.Popen(WORDS, stdin=subprocess.PIPE, stdout=subprocess.PIPE, text=True, bufsize=1)
        print(self.line())

    def line(self):
        return self.process.stdout.readline().rstrip("\n") or "(the end)"

    def ask(self, line):
        self.process.stdin.write(line + "\n")
        print(f"{line}: {self.line()}")

    def end(self):
        self.process.stdin.close()
        print(repr(self.process.stdout.read()), self.process.wait())


def write(name, text):
    with open(name, "w", encoding="ascii") as file:
        file.write(text)


def show(name):
    with open(name, encoding="ascii") as file:
        print(repr(file.read()))


def main():
    os.mkdir("D")
    # The last incarnation: a restart is refused, and the node goes on.
    write("D/R1.inc", "4294967294\n")
    node = Node()
    node.ask("RESTART R1")
    node.ask("EVAL R1.TICK 10 %IX0=1")
    node.end()
    show("J")
    show("D/R1.inc")
    os.remove("J")
    # What a restart finds unreadable is left as it is; once it is mended, restarts go on.
    write("D/R1.inc", "6\n")
    node = Node()
    write("D/R1.inc", "x")
    node.ask("RESTART R1")
    show("D/R1.inc")
    write("D/R1.inc", "9\n")
    node.ask("RESTART R1")
    node.end()
    show("J")
    os.remove("J")
    # Where a task's variables can't be kept, the evaluation is noted and not answered, and the process ends.
    node = Node()
    os.rename("D", "away")
    node.ask("RESTART R1")
    node.ask("EVAL R1.TICK 10 %IX1=1")
    node.end()
    show("J")
    show("away/R1.0.ret")
    os.rename("away", "D")
    # It was never done: the next start has the values before.
    Node().end()
    ran = subprocess.run([sys.argv[1], "audit", "retained.plant", "J"], capture_output=True, text=True)
    print(ran.stdout, ran.returncode)


main()
