"""Lines that come together are answered as those that come one by one, and without waiting for the next one."""
import subprocess
import sys

PLC = sys.argv[1]
EVALUATIONS = [f"EVAL R1.FAST 10 %IX0={k % 2}" for k in range(600)]
LINES = ["HELLO R2 1", *EVALUATIONS, *(2500 * [""]), "x", "RESTART R1", "HELLO R2 1", "EVAL R1.FAST 10"]
CLOSING = ("START ", "HELLO ", "EVAL ", "RESTART ", "REFUSED ")
told = []


class Node:
    def __init__(self, journal):
        words = [PLC, "node", "pair.plant", "R1", "--journal", journal]
        self.process = subprocess.Popen(words, stdin=subprocess.PIPE, stdout=subprocess.PIPE, text=True)
        self.answers = []
        self.wait_for(1)

    def write(self, text):
        self.process.stdin.write(text)
        self.process.stdin.flush()

    def wait_for(self, count):
        """Reads so many answers, each to its closing line."""
        while count:
            line = self.process.stdout.readline()
            if not line:
                told.append(f"{count} answers are missing")
                return
            self.answers.append(line)
            count -= line.startswith(CLOSING)

    def end(self):
        self.process.stdin.close()
        self.answers += self.process.stdout
        self.process.wait()
        return self.answers


def one_by_one():
    node = Node("one")
    for line in LINES:
        node.write(line + "\n")
        node.wait_for(bool(line))
    return node.end()


def all_at_once():
    with open("lines", "w", encoding="ascii") as file:
        file.writelines(f"{line}\n" for line in LINES)
    with open("lines", encoding="ascii") as given:
        words = [PLC, "node", "pair.plant", "R1", "--journal", "once"]
        ran = subprocess.run(words, stdin=given, capture_output=True, text=True, check=True)
    return ran.stdout.splitlines(keepends=True)


def in_pieces():
    """Of each piece but the last, the last line isn't whole: those before it are answered."""
    text = "".join(f"{line}\n" for line in LINES)
    node = Node("pieces")
    answered = 0
    for begin in range(0, len(text), 1000):
        node.write(text[begin : begin + 1000])
        whole = sum(bool(line) for line in text[: begin + 1000].split("\n")[:-1])
        node.wait_for(whole - answered)
        answered = whole
    return node.end()


def noted(name):
    with open(name, encoding="ascii") as file:
        return file.read()


def main():
    wanted = one_by_one()
    for answers in (all_at_once(), in_pieces()):
        if answers != wanted:
            told.append(f"{len(answers)} lines, not {len(wanted)}, or others")
    print("\n".join(told) or "each line is answered, in order, however they come")
    print("what was noted is the same" if noted("one") == noted("once") == noted("pieces") else "other lines are noted")


main()
