"""A root of its own for the proof of one crate.

While rt works on a crate it locks it and those below it, so two proofs in one tree wait for one another. In a room stand
the crate and those below it with their libraries, as hard links where the file system has them. What is proved there
is moved back.
"""
import os
import shutil
import tempfile

from crates import ROOT, crates_of, write_crates_txt

ROOMS = f"{ROOT}/.git/plc-rooms"


def place_of_rooms():
    """Where rooms are made: beside the repository's own files, where git doesn't look, or else where files come and go."""
    if not os.path.isdir(f"{ROOT}/.git"):
        return tempfile.gettempdir()
    shutil.rmtree(ROOMS, ignore_errors=True)
    os.mkdir(ROOMS)
    return ROOMS


def link_or_copy(old, new):
    try:
        os.link(old, new)
    except OSError:
        shutil.copy2(old, new)


def take_over(crate, to, parts):
    """Puts these parts of a crate's folder into another folder."""
    for part in parts:
        old, new = f"{ROOT}/crates/{crate}/{part}", f"{to}/{part}"
        os.makedirs(os.path.dirname(new), exist_ok=True)
        if os.path.isdir(old):
            shutil.copytree(old, new, copy_function=link_or_copy)
        elif os.path.exists(old):
            link_or_copy(old, new)


def move_parts(old, new):
    """Moves all that lies in a folder into another one, in place of what had the same name."""
    os.makedirs(new, exist_ok=True)
    for part in os.listdir(old) if os.path.isdir(old) else []:
        if os.path.isdir(f"{new}/{part}"):
            shutil.rmtree(f"{new}/{part}")
        shutil.move(f"{old}/{part}", f"{new}/{part}")


class Room:
    """A root in which one crate is proved."""

    def __init__(self, crate, place):
        self.out = f"{ROOT}/crates/{crate}/out"
        self.root = tempfile.mkdtemp(prefix=f"plc-{crate}-", dir=place)
        self.folder = f"{self.root}/crates/{crate}"
        crates = crates_of(crate)
        write_crates_txt(self.root, crates)
        link_or_copy(f"{ROOT}/HANDLES", f"{self.root}/HANDLES")
        for it in crates.keys() - {crate}:
            take_over(it, f"{self.root}/crates/{it}", ["src", "specs", "proofs", "out/rlib"])
        take_over(crate, self.folder, [it for it in os.listdir(f"{ROOT}/crates/{crate}") if it not in ("out", "must-fail")])
        for kept in ("rlib", "incremental"):
            if os.path.isdir(f"{self.out}/{kept}"):
                os.makedirs(f"{self.folder}/out", exist_ok=True)
                shutil.move(f"{self.out}/{kept}", f"{self.folder}/out/{kept}")

    def leave(self):
        """Moves what was proved, or the work on it, back into the repository."""
        move_parts(f"{self.folder}/out", self.out)
        shutil.rmtree(self.root, ignore_errors=True)
