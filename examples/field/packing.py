#!/usr/bin/python3
"""packing.py [--seconds S] [--kill NAME]: runs ../packing.plant in real time for S seconds (30), over a field bus and a broker.

plant.py is the belt, the gate and the box; each of the three resources is a node with modbus.py and bridge.py, as one cabinet has
them, and begins anew once it has ended. After half the time the node of NAME (BELT) gets KILL. At the end the journals are audited,
and the parts that fell, as mbpoll reads them, compared with those that BOX counted. The status is 0 where all is shown, as many
were counted as fell, and some did.

Not done: OPEN is a pulse of 30 ms, which BOX looks at each 20 ms; where a message is late or BOX is killed, its count may be short.
"""
import argparse
import contextlib
import os
import re
import shutil
import signal
import socket
import subprocess
import sys
import tempfile
import threading
import time

HERE = os.path.dirname(os.path.realpath(__file__))
PLC = os.environ.get("PLC", os.path.join(HERE, "..", "..", "plc"))
PLANT, NAMES = os.path.join(HERE, "..", "packing.plant"), ("BELT", "DOOR", "BOX")
HOST, BROKER_PORT, PLANT_PORT = "127.0.0.1", 18830, 15020


def script(name):
    return ["/usr/bin/python3", os.path.join(HERE, name)]


class Cabinet(threading.Thread):
    """A resource's node with its field and its network; what systemd does with plc-node@NAME."""

    def __init__(self, name):
        super().__init__()
        self.words = [*script("bridge.py"), "--broker", f"{HOST}:{BROKER_PORT}", name]
        self.words += [*script("modbus.py"), os.path.join(HERE, f"{name}.map"), f"{name}.field"]
        self.words += [PLC, "node", PLANT, name, "--cycle", "--field", f"{name}.field", "--state", "state", "--journal", f"{name}.journal"]
        self.is_ending, self.process = False, None
        self.start()

    def run(self):
        while not self.is_ending:
            self.process = subprocess.Popen(self.words)
            self.process.wait()
            time.sleep(0.1)

    def kill_node(self):
        """Kills the node alone: the last of those that began one another."""
        pid = self.process.pid
        while inner := open(f"/proc/{pid}/task/{pid}/children", encoding="ascii").read().split():
            pid = int(inner[0])
        os.kill(pid, signal.SIGKILL)

    def end(self):
        self.is_ending = True
        self.process.terminate()
        self.join()


def listens(port):
    with socket.socket() as it:
        return it.connect_ex((HOST, port)) == 0


def begun(port, *words):
    """A server that listens."""
    if listens(port):
        sys.exit(f"packing.py: another program listens at {port}")
    process = subprocess.Popen(words)
    while not listens(port):
        time.sleep(0.1)
        if process.poll() is not None:
            sys.exit(f"packing.py: {words[0]} doesn't run")
    return process


def fallen():
    """How many parts have fallen, read by another program than those that run here."""
    words = ["mbpoll", "-m", "tcp", "-p", str(PLANT_PORT), "-a", "1", "-0", "-r", "0", "-c", "1", "-t", "3", "-1", HOST]
    return int(re.search(r"\[0\]:\s*(\d+)", subprocess.run(words, capture_output=True, text=True, check=True).stdout)[1])


def audit(fell):
    """What the journals tell."""
    words = [PLC, "audit", PLANT, *(f"{name}.journal" for name in NAMES)]
    lines = subprocess.run(words, stdout=subprocess.PIPE, text=True).stdout.splitlines()
    made = [line.split() for line in lines if line.startswith("EVAL ")]
    for name in NAMES:
        times = [words[3].split(".")[0] for words in made if words[2].startswith(f"{name}.")]
        print(f"{name}: {len(times)} evaluations in incarnations {' '.join(sorted(set(times)))}")
    counts = [int(word[4:]) for words in made for word in words if word.startswith("T.N=")]
    counted = sum(max(0, after - before) for before, after in zip([0, *counts], counts))
    rest = [line for line in lines if not line.startswith("EVAL ")]
    print(f"{fell} parts fell, {counted} were counted", *rest, sep="\n")
    return 0 if rest == ["REPLAY equal"] and 0 < fell == counted else 1


def main():
    asked = argparse.ArgumentParser(description=__doc__, formatter_class=argparse.RawDescriptionHelpFormatter, usage=argparse.SUPPRESS)
    asked.add_argument("--seconds", type=float, default=30)
    asked.add_argument("--kill", choices=NAMES, default="BELT")
    asked = asked.parse_args()
    # Where the program isn't built yet, this builds it.
    subprocess.run([PLC, "check", PLANT], check=True, stdout=subprocess.DEVNULL)
    # As plc-node@.service has it, where that is allowed.
    with contextlib.suppress(PermissionError):
        os.sched_setscheduler(0, os.SCHED_FIFO, os.sched_param(10))
    with tempfile.TemporaryDirectory() as folder:
        os.chdir(folder)
        os.mkdir("state")
        servers, cabinets = [], []
        try:
            # (the operator stops the belt before the end, so that what fell can be counted)
            servers.append(begun(PLANT_PORT, *script("plant.py"), "--port", str(PLANT_PORT), "--seconds", str(asked.seconds - 2)))
            servers.append(begun(BROKER_PORT, "mosquitto", "-c", os.path.join(HERE, "..", "machines", "mosquitto.conf")))
            cabinets += [Cabinet(name) for name in NAMES]
            time.sleep(asked.seconds / 2)
            cabinets[NAMES.index(asked.kill)].kill_node()
            time.sleep(asked.seconds / 2)
            fell = fallen()
        finally:
            for it in cabinets:
                it.end()
            for it in servers:
                it.terminate()
                it.wait()
        return audit(fell)


sys.exit(main())
