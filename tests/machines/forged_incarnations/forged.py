"""forged.py PLC: of two nodes each is told, before each line that it gets, of an incarnation that never comes.

A hello that was believed would make R1 address what it makes to that incarnation, and a message that was taken would make all later
ones old: the link would be blocked for good. So both are refused, nothing of them is noted, and the audit shows all.
"""
import subprocess
import sys

PLC = sys.argv[1]
HIGHEST = 4294967295
FORGED = {
    "R1": [f"HELLO R2 {HIGHEST}", f"MESSAGE R2.SLOW {HIGHEST}.{HIGHEST} HEARD R1=1 R2={HIGHEST} GIVES B.SEEN=0 B.HIT=0"],
    "R2": [f"HELLO R1 {HIGHEST}", f"MESSAGE R1.FAST {HIGHEST}.{HIGHEST} HEARD R1={HIGHEST} R2=1 GIVES A.N=9 A.FULL=1"],
}
ROUNDS = 5


class Node:
    def __init__(self, name):
        self.name = name
        words = [PLC, "node", "pair.plant", name, "--journal", f"{name}.journal"]
        self.process = subprocess.Popen(words, stdin=subprocess.PIPE, stdout=subprocess.PIPE, text=True, bufsize=1)
        self.sent = self.answer()[0]

    def ask(self, line):
        """What is sent of a line, and its closing line."""
        for it in FORGED[self.name]:
            self.process.stdin.write(f"{it}\n")
            sent, closing = self.answer()
            if (sent, closing) != ([], "REFUSED TooHigh"):
                print(f"{it}: {sent} {closing}")
        self.process.stdin.write(f"{line}\n")
        return self.answer()

    def answer(self):
        lines = []
        while not lines or lines[-1].startswith("SEND "):
            lines.append(self.process.stdout.readline().rstrip("\n"))
        return [it.split(" ", 2)[2] for it in lines[:-1]], lines[-1]

    def end(self):
        self.process.stdin.close()
        return self.process.wait()


def main():
    first, second = Node("R1"), Node("R2")
    for it in second.sent:
        print(first.ask(it)[1])
    for it in first.sent:
        print(second.ask(it)[1])
    for _ in range(ROUNDS):
        sent, closing = first.ask("EVAL R1.FAST 10 %IX0=1")
        print(closing)
        for it in sent:
            print(second.ask(it)[1])
        print(second.ask("EVAL R2.SLOW 20")[1])
    print(first.end(), second.end())
    for it in (first, second):
        with open(f"{it.name}.journal", encoding="ascii") as file:
            print(f"{it.name} noted {file.read().count(str(HIGHEST))} of them")
    print(subprocess.run([PLC, "audit", "pair.plant", "R1.journal", "R2.journal"], capture_output=True, text=True).stdout.splitlines()[-1])


main()
