"""Asks nodes line by line, as the transcripts of this folder have it, and compares each answer before the next line is written.

In a transcript `$ ` begins a node, `> ` is a line that it reads; what stands below is what it writes. `== ` is a title.
"""
import glob
import os
import subprocess
import sys
import threading

PLC, SECONDS = sys.argv[1], 20
told = []


def nodes_of(text):
    """Of each node the title, its words, and each line read (None: the start) with what is written then."""
    title, nodes = None, []
    for line in text.split("\n"):
        if line.startswith("== "):
            title = line[3:]
        elif line.startswith("$ "):
            nodes.append((title, line[2:].split(" "), [(None, [])]))
        elif line.startswith(">"):
            nodes[-1][2].append((line[2:].replace("\\t", "\t").replace("\\r", "\r"), []))
        elif line:
            nodes[-1][2][-1][1].append(line)
    return nodes


class Node:
    def __init__(self, words):
        self.process = subprocess.Popen([PLC, *words], stdin=subprocess.PIPE, stdout=subprocess.PIPE)
        self.timer = threading.Timer(SECONDS, self.process.kill)
        self.timer.start()

    def ask(self, line):
        self.process.stdin.write(f"{line}\n".encode())
        self.process.stdin.flush()

    def answer(self):
        """Lines up to the closing one, which is no SEND."""
        lines = []
        while not lines or lines[-1].startswith("SEND "):
            line = self.process.stdout.readline().decode()
            if not line:
                return [*lines, "(the end)"]
            lines.append(line.removesuffix("\n"))
        return lines

    def end(self):
        self.process.stdin.close()
        rest = self.process.stdout.read().decode()
        self.timer.cancel()
        return rest, self.process.wait()


def try_transcript(title, words, asked):
    node = Node(words)
    for line, wanted in asked:
        if line is not None:
            node.ask(line)
        # A blank line or a comment has no answer: one that came would stand before the next line's.
        answered = node.answer() if wanted else []
        if answered != wanted:
            told.append(f"{title}: {line!r} is answered by {answered}, not by {wanted}")
            break
    ended = node.end()
    if ended != ("", 0) and answered == wanted:
        told.append(f"{title}: it ended with {ended}")


def main():
    count = 0
    os.mkdir("state")
    for name in sorted(glob.glob("*.transcript")):
        with open(name, encoding="ascii") as file:
            for title, words, asked in nodes_of(file.read()):
                try_transcript(title, words, asked)
                count += len(asked)
    print("\n".join(told) or f"{count} answers as they are to be")


main()
