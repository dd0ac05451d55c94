"""Libraries of C that are loaded before those of a program, and change what its calls answer."""
import os
import subprocess
import sys

HERE = os.path.dirname(os.path.realpath(__file__))
ROOT = os.path.dirname(HERE)
sys.path.append(os.path.join(ROOT, "run"))
from shipped import newest_program

PROGRAM = os.environ.get("PLC", newest_program())


def built(name, place):
    """Builds tests/NAME.c in a folder; the library's path, for LD_PRELOAD."""
    library = os.path.join(place, f"{name}.so")
    subprocess.run(["cc", "-O1", "-shared", "-fPIC", "-o", library, os.path.join(HERE, f"{name}.c"), "-ldl"], check=True)
    return library
