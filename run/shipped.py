"""The program that is shipped: what dist/SOURCES tells of it, and what of it doesn't fit."""
import hashlib
import os
import re
import subprocess

from crates import PROGRAM, ROOT

SHIPPED = f"{ROOT}/dist/plc-x86_64-linux"
SOURCES = f"{ROOT}/dist/SOURCES"
BUILT = f"{ROOT}/crates/{PROGRAM}/out/{PROGRAM}"
SHIP = "run/ship ships it anew"


def newest_program():
    """The program that was built here or the one that is shipped, whichever is newer."""
    return max(filter(os.path.isfile, (BUILT, SHIPPED)), key=os.path.getmtime, default=SHIPPED)


def asked_of_sources(what):
    """What a line of run/sources.sh answers."""
    line = f'root=$1; . "$root/run/sources.sh"; {what}'
    return subprocess.run(["sh", "-c", line, "sh", ROOT], stdout=subprocess.PIPE, text=True, check=True).stdout.strip()


def sum_of_sources():
    return asked_of_sources("sum_of_sources")


def version_file():
    """The source that tells the sum over all others."""
    return f"{ROOT}/{asked_of_sources('echo $TELLS_SUM')}"


def text_of(path):
    try:
        with open(path, encoding="utf-8") as file:
            return file.read()
    except FileNotFoundError:
        return ""


def sum_of(path):
    with open(path, "rb") as file:
        return hashlib.sha256(file.read()).hexdigest()


def version_text(text, total):
    """The text of the source that tells the sum, with this sum."""
    return re.sub(r"sources [0-9a-f]{64}", f"sources {total}", text)


def kit():
    return subprocess.run(["rt", "version"], stdout=subprocess.PIPE, text=True, check=True).stdout.strip()


def sources_text(total, kit_name, program):
    return f"sources {total}\nkit {kit_name}\nprogram {program}\n"


def told():
    """What SOURCES tells, by the first word of each line."""
    return dict(line.split(" ", 1) for line in text_of(SOURCES).splitlines() if " " in line)


def what_differs():
    """What of dist/ doesn't fit the sources that are there; None where all fits. Needs no kit."""
    if not (os.path.isfile(SHIPPED) and os.path.isfile(SOURCES)):
        return f"dist/ has no program: {SHIP}"
    says, total = told(), sum_of_sources()
    if text_of(SOURCES) != sources_text(says.get("sources"), says.get("kit"), says.get("program")):
        return f"dist/SOURCES isn't three lines of sources, kit and program: {SHIP}"
    if says["sources"] != total:
        return f"a source changed, and dist/ has the program of those before: {SHIP}"
    if text_of(version_file()) != version_text(text_of(version_file()), total):
        return f"{os.path.relpath(version_file(), ROOT)} tells another sum over the sources: {SHIP}"
    if says["program"] != sum_of(SHIPPED):
        return f"{os.path.relpath(SHIPPED, ROOT)} isn't the program that dist/SOURCES names: {SHIP}"
    return None


def is_of_this_kit():
    return told().get("kit") == kit()


def is_as_built():
    """Whether the program that was built is the one that is shipped, byte by byte."""
    return os.path.isfile(BUILT) and sum_of(BUILT) == sum_of(SHIPPED)
