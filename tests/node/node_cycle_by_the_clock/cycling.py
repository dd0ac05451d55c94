"""A node evaluates its task by itself: before its field tells anything, then with what it told, and once it has ended without that.
The journal shows all that was answered, and at most one evaluation more, that of a line which was noted when the node was killed."""
import re
import subprocess
import sys

PLC = sys.argv[1]
EVALUATION = re.compile(r"EVAL (\d+) R1\.K 1\.(\d+) TAKES - GIVES C\.Y=([01])\n")


class Node:
    def __init__(self):
        words = [PLC, "node", "copy.plant", "R1", "--cycle", "--field", "-", "--journal", "journal"]
        self.process = subprocess.Popen(words, stdin=subprocess.PIPE, stdout=subprocess.PIPE, text=True)
        self.answered = 0

    def line(self):
        """The next line that tells of no overrun."""
        line = self.process.stdout.readline()
        while line.startswith("OVERRUN R1.K "):
            line = self.process.stdout.readline()
        return line

    def value(self, line):
        """What an evaluation gave, the next in number."""
        made = EVALUATION.fullmatch(line)
        if not made or int(made[1]) != self.answered + 1 or made[1] != made[2]:
            sys.exit(f"behind {self.answered} evaluations: {line}")
        self.answered += 1
        return made[3]

    def values(self, number):
        return {self.value(self.line()) for _ in range(number)}

    def values_before(self, wanted):
        found, line = set(), self.line()
        while line != wanted:
            found.add(self.value(line))
            line = self.line()
        return found

    def kill(self):
        self.process.kill()
        for line in self.process.communicate()[0].splitlines(keepends=True):
            if line.endswith("\n") and not line.startswith("OVERRUN R1.K "):
                self.value(line)


def main():
    node = Node()
    print(node.line(), end="")
    print("nothing is told:", node.values(3))
    node.process.stdin.write("INPUT %IX0=1\n")
    node.process.stdin.flush()
    print("before it is taken:", node.values_before("INPUT taken\n") - {"0"} or "the same")
    print("it is taken:", node.values(3))
    node.process.stdin.close()
    print("before the field ends:", node.values_before("FIELD ended\n") - {"1"} or "the same")
    print("it has ended:", node.values(3))
    node.process.stdin = None
    node.kill()
    audit = subprocess.run([PLC, "audit", "copy.plant", "journal"], stdout=subprocess.PIPE, text=True)
    *shown, last = audit.stdout.splitlines()
    print(last, audit.returncode, len(shown) - node.answered in (0, 1))


main()
