"""Runs the pair over one folder of state, while another program holds it, and many times at once: no incarnation comes twice."""
import fcntl
import os
import re
import subprocess
import sys

WORDS = [sys.argv[1], "run", "pair.plant", "--until", "20", "--paced", "--state", "D", "%IX0=1"]
IN_USE = "plc: D: another run uses this folder\n"
PIPES = {"stdout": subprocess.PIPE, "stderr": subprocess.PIPE, "text": True}


def incarnation(out):
    return int(re.match(r"EVAL 1 R1\.FAST ([0-9]+)\.1 ", out)[1])


def main():
    os.mkdir("D")
    held = os.open("D", os.O_RDONLY)
    fcntl.flock(held, fcntl.LOCK_EX)
    ran = subprocess.run(WORDS, **PIPES)
    print((ran.returncode, ran.stdout, ran.stderr == IN_USE, os.listdir("D")))
    os.close(held)
    runs = [subprocess.Popen(WORDS, **PIPES) for _ in range(12)]
    answers = [(*run.communicate(), run.returncode) for run in runs]
    refused = [err for _, err, status in answers if status == 3]
    answered = sorted(incarnation(out) for out, _, status in answers if status == 0)
    print("all is answered" if len(refused) + len(answered) == 12 else answers)
    print("one after the other" if answered == list(range(1, len(answered) + 1)) else answered)
    print("the others are refused" if set(refused) <= {IN_USE} else refused)


main()
