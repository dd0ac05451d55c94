#!/usr/bin/env python3
"""ring.py [--broker] [COUNT]: three nodes in a ring, with a medium that loses, doubles and reorders. After half of COUNT evaluations
one of them is killed and begins anew; at the end their journals are audited. Between the nodes are pipes, or a broker (mosquitto).
"""
import argparse
import os
import shutil
import signal
import socket
import subprocess
import sys
import tempfile
import time

HERE = os.path.dirname(os.path.realpath(__file__))
PLC = os.environ.get("PLC", os.path.join(HERE, "..", "..", "plc"))
NAMES = ("R1", "R2", "R3")
HOST, PORT = "127.0.0.1", 18830


class Ring:
    def __init__(self, folder, has_broker):
        self.folder, self.nodes = folder, {}
        path = os.environ["PATH"] if has_broker else os.path.join(HERE, "pipes") + os.pathsep + os.environ["PATH"]
        self.how = {"cwd": folder, "env": {**os.environ, "PLC": PLC, "PATH": path, "BROKER": f"-h {HOST} -p {PORT}"}}
        os.mkdir(os.path.join(folder, "state"))
        shutil.copy(os.path.join(HERE, "three.plant"), folder)
        # Where the program isn't built yet, this builds it.
        subprocess.run([PLC, "check", "three.plant"], check=True, stdout=subprocess.DEVNULL, **self.how)
        # A pipe keeps what comes while its reader is away, as a broker does.
        pipes = [os.path.join(folder, f"to.{name}") for name in NAMES]
        self.pipes = [os.mkfifo(it) or os.open(it, os.O_RDWR) for it in pipes]
        self.broker = begun_broker() if has_broker else None

    def begin(self, name, seed, count):
        """A node with what is round it, in a group of processes of its own."""
        words = [os.path.join(HERE, "node.sh"), name, str(seed), str(count)]
        with open(os.path.join(self.folder, f"{name}.answers"), "ab") as answers:
            self.nodes[name] = subprocess.Popen(words, stdout=answers, start_new_session=True, **self.how)

    def kill(self, name):
        os.killpg(self.nodes[name].pid, signal.SIGKILL)
        self.nodes[name].wait()

    def end(self):
        for name in self.nodes:
            self.kill(name)
        if self.broker:
            self.broker.terminate()
            self.broker.wait()

    def answers(self, name):
        """What a node has answered to EVAL: all but the place in its process."""
        with open(os.path.join(self.folder, f"{name}.answers"), encoding="ascii") as file:
            return [made_by(line) for line in file if line.startswith("EVAL ") and line.endswith("\n")]

    def wait_for(self, name, count):
        ends = time.monotonic() + 30 + count / 10
        while len(self.answers(name)) < count and time.monotonic() < ends:
            time.sleep(0.1)

    def audit(self):
        journals = [f"{name}.journal" for name in NAMES]
        ran = subprocess.run([PLC, "audit", "three.plant", *journals], capture_output=True, text=True, **self.how)
        sys.stderr.write(ran.stderr)
        return ran.stdout.splitlines(), ran.returncode


def begun_broker():
    """A broker that listens."""
    broker = subprocess.Popen(["mosquitto", "-c", os.path.join(HERE, "mosquitto.conf")])
    while broker.poll() is None:
        try:
            socket.create_connection((HOST, PORT)).close()
            return broker
        except OSError:
            time.sleep(0.1)
    sys.exit("ring.py: mosquitto doesn't run")


def made_by(line):
    return line.split(maxsplit=2)[2].rstrip("\n")


def tell(ring):
    """What the audit says of what the nodes answered."""
    lines, status = ring.audit()
    made = [made_by(line) for line in lines if line.startswith("EVAL ")]
    for name in NAMES:
        answers = ring.answers(name)
        incarnations = sorted({it.split()[1].partition(".")[0] for it in answers})
        where = "in the book" if set(answers) <= set(made) else "not all in the book"
        print(f"{name}: {len(answers)} answers in incarnations {' '.join(incarnations)}, {where}")
    taken = sum("=-" not in it for it in made)
    print(f"{taken} of {len(made)} evaluations took one of the node before")
    print(*(it for it in lines if not it.startswith("EVAL ")), sep="\n")
    return status if taken else 1


def main():
    asked = argparse.ArgumentParser(description="Runs three nodes in a ring, and audits their journals.")
    asked.add_argument("--broker", action="store_true")
    asked.add_argument("count", type=int, nargs="?", default=100)
    asked = asked.parse_args()
    signal.signal(signal.SIGTERM, lambda *_: sys.exit(1))
    with tempfile.TemporaryDirectory() as folder:
        ring = Ring(folder, asked.broker)
        try:
            for seed, name in enumerate(NAMES):
                ring.begin(name, seed, asked.count)
            ring.wait_for("R2", asked.count // 2)
            ring.kill("R2")
            done = len(ring.answers("R2"))
            ring.begin("R2", len(NAMES), asked.count - done)
            for name in NAMES:
                ring.wait_for(name, asked.count)
        finally:
            ring.end()
        return tell(ring)


sys.exit(main())
