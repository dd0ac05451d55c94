"""Where nobody reads the output any longer, nothing is told; the status is that of an output that can't be written."""
import os
import subprocess
import sys

PLC = sys.argv[1]
COMMANDS = [
    "eval branches.ladder A=10",
    "eval branches.ladder A=10 --show",
    "eval branches.ladder A=10 --chart",
    "verify hoist.ladder --never LIFT",
    "check pair.plant",
    "plan pair.plant --until 20",
    "sim pair.plant one_evaluation.schedule",
    "explain",
    "explain Waits",
]
for command in COMMANDS:
    ours, its = os.pipe()
    os.close(ours)
    ran = subprocess.run([PLC, *command.split()], stdin=subprocess.DEVNULL, stdout=its, stderr=subprocess.PIPE, text=True)
    os.close(its)
    print(f"{command}: {ran.returncode} {ran.stderr}".rstrip())
