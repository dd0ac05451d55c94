"""rt.py WORD..: rt, the command of the Rattle kit, with the sum of each crate made once, and what is below it listed once.

By a sum over a crate and all below it rt tells whether its library still fits. rt makes the sum of a crate anew on each
way down to it, and from plc_main there are 32,000 ways: 50 seconds each time. Here a sum is made once while that of a crate above
is made. The crates below each one rt lists as often, and what a crate names never changes while rt runs. An rt that is built
otherwise runs as it is.
"""
import importlib.machinery
import importlib.util
import os
import shutil
import sys

sys.dont_write_bytecode = True


def load(path):
    """The script at this path as a module."""
    loader = importlib.machinery.SourceFileLoader("rt", path)
    module = importlib.util.module_from_spec(importlib.util.spec_from_loader("rt", loader))
    loader.exec_module(module)
    return module


def each_once(sum_of):
    """The same sums, each made once while an outer one is made."""
    made, depth = {}, 0

    def sum_once(crate):
        nonlocal depth
        if crate.folder in made:
            return made[crate.folder]
        depth += 1
        try:
            made[crate.folder] = sum_of(crate)
            return made[crate.folder]
        finally:
            depth -= 1
            if not depth:
                made.clear()

    return sum_once


def listed_once(below):
    """The same lists of crates, each made once."""

    def below_once(crate):
        if not hasattr(crate, "listed_below"):
            crate.listed_below = below(crate)
        return [*crate.listed_below]

    return below_once


def load_once(path):
    """rt as a module, with each sum and each list of the crates below made once."""
    rt = load(path)
    crate = rt.rtlib.Crate
    crate.stamp, crate.below = each_once(crate.stamp), listed_once(crate.below)
    return rt


def main(words):
    path = shutil.which("rt")
    try:
        rt = load_once(path)
    except (AttributeError, ImportError, SyntaxError, UnicodeDecodeError):
        os.execv(path, [path, *words])
    return rt.main(words)


if __name__ == "__main__":
    sys.exit(main(sys.argv[1:]))
