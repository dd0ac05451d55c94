"""Three nodes in a ring, over pipes that lose, double and reorder what is sent, each asked again once it has answered.

Nodes are killed in the middle of a line and begin anew on the same folder and file. Whatever the order was, the audit finds a run:
each answer stands in its book, and nothing is unshown.
"""
import os
import queue
import random
import signal
import subprocess
import sys
import threading

PLC, PLANT, NAMES = sys.argv[1], "three.plant", ("R1", "R2", "R3")
# three_nodes.py PLC [SEED]: another seed than this one has other kills.
SEED = sys.argv[2] if len(sys.argv) > 2 else "51"
# A node is killed once it has answered so many; all go on until they have, and have so often taken what another gave.
KILLS = {"R1": [], "R2": [25, 40], "R3": [30]}
if SEED != "51":
    KILLS = {name: sorted(random.Random(f"{name} {SEED}").sample(range(60), 4)) for name in NAMES}
ANSWERS, TAKES, MOST = 60, 10, 5000
SECONDS = 100


class Node:
    """A node, with the medium behind its SEND lines. It is asked by what its answers bring."""

    def __init__(self, name, ring):
        self.name, self.ring = name, ring
        self.chance, self.held = random.Random(f"{SEED} {name}"), []
        self.kills, self.answers, self.takes, self.starts = list(KILLS[name]), [], 0, 0
        self.begin()

    def begin(self):
        words = [PLC, "node", PLANT, self.name, "--state", "state", "--journal", f"{self.name}.journal"]
        self.process = subprocess.Popen(words, stdin=subprocess.PIPE, stdout=subprocess.PIPE, bufsize=0)
        self.ahead = queue.SimpleQueue()
        threads = [threading.Thread(target=it, args=(self.process, self.ahead), daemon=True) for it in (self.write, self.read)]
        for it in threads:
            it.start()

    def write(self, process, ahead):
        """Hands on what is ahead, line by line, so that no reader waits for a writer."""
        for line in iter(ahead.get, None):
            try:
                process.stdin.write(line)
            except OSError:
                return
        process.stdin.close()

    def read(self, process, _ahead):
        for line in process.stdout:
            if not line.endswith(b"\n"):
                break
            self.ring.heard.put((self, process, line.decode()))
        self.ring.heard.put((self, process, None))

    def ask(self):
        self.ahead.put(f"EVAL {self.name}.STEP 20\n".encode())

    def sent(self, line):
        """The medium: a line is lost, doubled, or held back behind the next one."""
        fate = self.chance.choice(["lost", "doubled", "held", "sent", "sent"])
        if fate == "held":
            self.held.append(line)
            return
        for it in [line] * {"lost": 0, "doubled": 2, "sent": 1}[fate] + self.held:
            _, to, rest = it.split(" ", 2)
            self.ring.nodes[to].ahead.put(rest.encode())
        self.held.clear()

    @property
    def is_done(self):
        return not self.kills and (len(self.answers) >= ANSWERS and self.takes >= TAKES or len(self.answers) >= MOST)


class Ring:
    """All goes through one queue: what a node writes is looked at in the order in which it came."""

    def __init__(self):
        self.heard, self.nodes = queue.SimpleQueue(), {}
        for name in NAMES:
            self.nodes[name] = Node(name, self)

    def run(self):
        ends = len(NAMES)
        while ends:
            node, process, line = self.heard.get(timeout=SECONDS)
            if line is None:
                ends -= process is node.process
            elif line.startswith("SEND "):
                node.sent(line)
            elif process is node.process:
                self.closing(node, line)

    def closing(self, node, line):
        word = line.split(" ", 1)[0]
        if word == "EVAL":
            node.answers.append(line.split(" ", 2)[2])
            node.takes += "=-" not in line
        elif word == "START":
            node.starts += 1
        elif word not in ("HELLO", "MESSAGE"):
            print(f"{node.name} wrote {line!r}")
        if word not in ("EVAL", "START"):
            return
        if node.kills and len(node.answers) >= node.kills[0]:
            node.kills.pop(0)
            # It is asked, and killed before its answer is looked at.
            node.ask()
            node.process.send_signal(signal.SIGKILL)
            node.process.wait()
            node.begin()
        elif all(it.is_done for it in self.nodes.values()):
            for it in self.nodes.values():
                it.ahead.put(None)
        else:
            node.ask()


def main():
    os.mkdir("state")
    ring = Ring()
    ring.run()
    statuses = [it.process.wait() for it in ring.nodes.values()]
    audit = subprocess.run([PLC, "audit", PLANT, *(f"{name}.journal" for name in NAMES)], capture_output=True, text=True)
    lines = audit.stdout.splitlines(keepends=True)
    made = [line.split(" ", 2)[2] for line in lines if line.startswith("EVAL ")]
    print("the nodes ended with", *statuses)
    for it in ring.nodes.values():
        own = [line for line in made if line.startswith(f"{it.name}.")]
        missing = [line for line in it.answers if line not in own]
        print(f"{it.name}: {it.starts} starts;", "all its answers stand in the book" if not missing else missing)
        print("it took what another gave" if it.takes >= TAKES else f"it took {it.takes}")
    print(*(line for line in lines if not line.startswith("EVAL ")), end="", sep="")
    print(f"status {audit.returncode}")


main()
