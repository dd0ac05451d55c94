#!/usr/bin/env python3
"""Drives examples/pair.plant by plc, line by line: a toy process whose messages come late, twice, or never."""
import os
import subprocess

HERE = os.path.dirname(os.path.realpath(__file__))
PLC = [os.path.join(HERE, "..", "plc"), "sim", os.path.join(HERE, "pair.plant"), "-"]


class Plant:
    """A running plc: an event goes in, and what it did comes out before the next one is asked for."""

    def __init__(self):
        self.process = subprocess.Popen(PLC, stdin=subprocess.PIPE, stdout=subprocess.PIPE, text=True, bufsize=1)

    def does(self, event):
        self.process.stdin.write(event + "\n")
        answer = self.process.stdout.readline().rstrip("\n")
        print(f"{event:28}{answer}")
        return answer

    def evaluates(self, event):
        """The message, what was taken, and what was given."""
        words = self.does("EVAL " + event).split()
        given = words[words.index("GIVES") + 1 :]
        return int(words[1]), words[5], {name: int(value) for name, value in (it.split("=") for it in given)}

    def ends(self):
        self.process.stdin.close()
        assert self.process.stdout.read() == "" and self.process.wait() == 0


def main():
    plant, is_there, counted, sent = Plant(), False, 0, []
    for _ in range(6):
        # A part comes and goes: the counter sees a rise at each second evaluation.
        is_there = not is_there
        message, _, given = plant.evaluates(f"R1.FAST 10 %IX0={int(is_there)}")
        counted += is_there
        assert given == {"A.N": counted, "A.FULL": int(counted >= 3)}
        sent.append(message)
    # The newest message comes first, an older one late, and the newest once more.
    assert plant.does(f"DELIVER {sent[4]} R2").endswith("taken")
    assert plant.does(f"DELIVER {sent[1]} R2").endswith("old")
    assert plant.does(f"DELIVER {sent[4]} R2").endswith("old")
    _, taken, given = plant.evaluates("R2.SLOW 20")
    assert taken == "R1.FAST=1.5" and given == {"B.SEEN": 3, "B.HIT": 1}
    # The counter restarts and has forgotten all; the watcher knows of it once a message comes.
    assert plant.does("RESTART R1") == "RESTART R1 2"
    message, _, given = plant.evaluates("R1.FAST 10")
    assert given == {"A.N": 0, "A.FULL": 0}
    assert plant.does(f"DELIVER {message} R2").endswith("taken")
    assert plant.does(f"DELIVER {sent[5]} R2").endswith("old")
    _, taken, given = plant.evaluates("R2.SLOW 20")
    assert taken == "R1.FAST=2.1" and given == {"B.SEEN": 0, "B.HIT": 0}
    plant.ends()
    print("all as expected")


main()
