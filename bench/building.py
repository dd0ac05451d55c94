"""Proves and builds a crate of this folder in a temporary root, beside the repository's crates as they are built.

The crate's files have .txt behind their names here, since rt ci lets no file of a crate stand that crates.txt doesn't list.
"""
import os
import shutil
import subprocess
import sys

HERE = os.path.dirname(os.path.realpath(__file__))
ROOT = os.path.dirname(HERE)
sys.path.insert(0, f"{ROOT}/run")
sys.dont_write_bytecode = True
from crates import crates_of, lines_of_crates, names_of, write_crates_txt


def run(words, folder):
    """Runs a command; what it says is shown if it fails."""
    done = subprocess.run(words, cwd=folder, stdin=subprocess.DEVNULL, stdout=subprocess.PIPE, stderr=subprocess.STDOUT, text=True)
    if done.returncode:
        sys.exit(f"{done.stdout[-3000:]}\n{' '.join(words)} ended with status {done.returncode}")
    return done.stdout


def copy_named(source, target):
    """Copies a file under the name that rt reads."""
    shutil.copy(source, target.removesuffix(".txt"))


def copy_below(root, crates, more=""):
    """Copies these crates, and those that they stand on, with what `rt lib` made of them, into a root; more is the line of one that only that root has."""
    unneeded = shutil.ignore_patterns("incremental", "must-fail", "BUILD.bazel")
    wanted = crates_of(*crates)
    for it in wanted:
        shutil.copytree(os.path.join(ROOT, "crates", it), os.path.join(root, "crates", it), ignore=unneeded)
    shutil.copy(os.path.join(ROOT, "HANDLES"), root)
    write_crates_txt(root, wanted, more)


def copy_crates(root, line):
    """Copies the crate of a line for crates.txt from this folder, and those that it stands on; answers its folder."""
    copy_below(root, [it for it in names_of(line) if it in lines_of_crates()], f"{line}\n")
    name = line.partition(":")[0].split()[0]
    folder = os.path.join(root, "crates", name)
    shutil.copytree(os.path.join(HERE, name), folder, copy_function=copy_named)
    return folder
