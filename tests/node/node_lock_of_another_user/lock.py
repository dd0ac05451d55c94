"""A lock that another user made, and that only this one may open, isn't passed over: no node begins on the folder.

As root the node is run as nobody, by a copy of the program where that one may read it; any other user may not open its own file of no
rights.
"""
import os
import shutil
import subprocess
import sys

sys.dont_write_bytecode = True
sys.path.append(os.path.join(os.path.dirname(os.path.realpath(sys.argv[1])), "run"))
from shipped import newest_program

NOBODY = 65534


def main():
    os.mkdir("D")
    with open("D/R1.lock", "w"):
        pass
    how = {}
    if os.getuid() == 0:
        shutil.copy(newest_program(), "program")
        os.chmod(".", 0o711)
        os.chown("D", NOBODY, NOBODY)
        os.chmod("D/R1.lock", 0o600)
        how = {"user": NOBODY, "group": NOBODY, "extra_groups": []}
    else:
        os.symlink(newest_program(), "program")
        os.chmod("D/R1.lock", 0)
    words = ["./program", "node", "pair.plant", "R1", "--state", "D"]
    ran = subprocess.run(words, stdin=subprocess.DEVNULL, capture_output=True, text=True, **how)
    print(ran.returncode, repr(ran.stdout), ran.stderr, sorted(os.listdir("D")))


main()
