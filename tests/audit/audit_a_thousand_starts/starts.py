"""A journal of 40 kB with a thousand STARTs, each a million above the one before, costs no more than its first one.

Its evaluations would else be a run of 10^9 restarts, for which no memory is enough.
"""
import resource
import subprocess
import sys

PLC, STARTS, ABOVE = sys.argv[1], 1000, 1_000_000
# The million restarts that an audit may make cost some 115 MB; of processor time it has plenty, on a slow machine too.
MOST_MB, MOST_SECONDS = 300, 20


def limited():
    resource.setrlimit(resource.RLIMIT_AS, (MOST_MB << 20, MOST_MB << 20))
    resource.setrlimit(resource.RLIMIT_CPU, (MOST_SECONDS, MOST_SECONDS))


def audit(first):
    with open("J", "w", encoding="ascii") as file:
        file.write("".join(f"\nSTART R1 {first + k * ABOVE};\nEVAL R1.FAST 10;\n" for k in range(STARTS)))
    ran = subprocess.run([PLC, "audit", "pair.plant", "J"], capture_output=True, text=True, preexec_fn=limited)
    print(ran.stdout + ran.stderr, ran.returncode, sep="")


audit(1)
audit(ABOVE)
