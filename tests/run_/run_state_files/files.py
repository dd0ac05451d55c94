"""Runs the pair over folders of state: what is in the file of R1 before, what is answered, and what is in it afterwards."""
import os
import resource
import signal
import subprocess
import sys
import tempfile

PLC = sys.argv[1]
HERE = os.getcwd()
WORDS = [PLC, "run", os.path.join(HERE, "pair.plant"), "--until", "20", "--paced", "--state"]
NO_REPORT = "plc: the threads gave no report: Keeper\n"
told = []

# The content of the file, and the incarnation of the run, or the kind of fault.
CONTENTS = [
    (None, 1),
    (b"0\n", 1),
    (b"1\n", 2),
    (b"9\n", 10),
    (b"4294967294\n", 4294967295),
    (b"4294967295\n", "Spent"),
    (b"4294967296\n", "Unreadable"),
    (b"99999999999\n", "Unreadable"),
    (b"", "Unreadable"),
    (b"\n", "Unreadable"),
    (b"x", "Unreadable"),
    (b"1", "Unreadable"),
    (b"01\n", "Unreadable"),
    (b"00\n", "Unreadable"),
    (b"+1\n", "Unreadable"),
    (b"-1\n", "Unreadable"),
    (b" 1\n", "Unreadable"),
    (b"1 \n", "Unreadable"),
    (b"1\r\n", "Unreadable"),
    (b"1\n\n", "Unreadable"),
    (b"1\n2\n", "Unreadable"),
    (b"1\0\n", "Unreadable"),
    (b"1_0\n", "Unreadable"),
    (b"\xff\n", "Unreadable"),
    (b"\xef\xbb\xbf1\n", "Unreadable"),
    (b"1" * 100000 + b"\n", "Unreadable"),
]


def lines(incarnation, of_r2):
    i, j = incarnation, of_r2
    return (
        f"EVAL 1 R1.FAST {i}.1 TAKES - GIVES A.N=1 A.FULL=0\nEVAL 2 R1.FAST {i}.2 TAKES - GIVES A.N=1 A.FULL=0\n"
        f"EVAL 3 R2.SLOW {j}.1 TAKES R1.FAST={i}.2 GIVES B.SEEN=1 B.HIT=0\nREPLAY equal\n"
    )


def run(place, folder="D", before=None):
    words = [*WORDS, folder, "%IX0=1"]
    return subprocess.run(words, cwd=place, capture_output=True, text=True, timeout=60, preexec_fn=before)


def compare(what, ran, wanted):
    found = (ran.returncode, ran.stdout, ran.stderr)
    if found != wanted:
        told.append(f"{what}: {found}, not {wanted}")


def holds(what, path, wanted):
    found = None
    if os.path.exists(path):
        with open(path, "rb") as file:
            found = file.read()
    if found != wanted:
        told.append(f"{what}: {path} holds {found!r}, not {wanted!r}")


def made(place, content):
    os.mkdir(os.path.join(place, "D"))
    path = os.path.join(place, "D", "R1.inc")
    if content is not None:
        with open(path, "wb") as file:
            file.write(content)
    return path


def try_content(content, answer):
    with tempfile.TemporaryDirectory() as place:
        path = made(place, content)
        ran = run(place)
        if isinstance(answer, int):
            compare(content, ran, (0, lines(answer, 1), ""))
            holds(content, path, b"%d\n" % answer)
        else:
            compare(content, ran, (3, "", f"{NO_REPORT}plc: D/R1.inc: {answer}\n"))
            holds(content, path, content)
            holds(content, os.path.join(place, "D", "R2.inc"), None)


def refused(what, spoil, kind, content=b"4\n", before=None):
    """A spoiled folder is answered by this kind, and the number isn't lost."""
    with tempfile.TemporaryDirectory() as place:
        path = made(place, content)
        spoil(place, path)
        named = "" if kind == "Unwritable" else f"plc: D/R1.inc: {kind}\n"
        compare(what, run(place, before=before), (3, "", NO_REPORT + named))
        if os.path.isfile(path):
            holds(what, path, content)


def full_disk():
    signal.signal(signal.SIGXFSZ, signal.SIG_IGN)
    resource.setrlimit(resource.RLIMIT_FSIZE, (0, 0))


def remove(path):
    os.remove(path)


def folder_instead(_place, path):
    os.remove(path)
    os.mkdir(path)


def pipe_instead(_place, path):
    os.remove(path)
    os.mkfifo(path)


def link_to_nothing(_place, path):
    os.remove(path)
    os.symlink("nothing", path)


def link_to_itself(_place, path):
    os.remove(path)
    os.symlink(path, path)


def endless(_place, path):
    os.remove(path)
    os.symlink("/dev/zero", path)


def temporary_is_a_folder(_place, path):
    os.mkdir(path.replace(".inc", ".tmp"))


def try_links():
    """A link to a file is followed, and then replaced."""
    with tempfile.TemporaryDirectory() as place:
        path = made(place, None)
        with open(os.path.join(place, "kept"), "wb") as file:
            file.write(b"6\n")
        os.symlink("../kept", path)
        compare("a link", run(place), (0, lines(7, 1), ""))
        holds("a link", path, b"7\n")
        # One in the place of the temporary file isn't.
        os.symlink("../kept", path.replace(".inc", ".tmp"))
        compare("a link for the temporary file", run(place), (0, lines(8, 2), ""))
        holds("a link for the temporary file", os.path.join(place, "kept"), b"6\n")
        if os.path.islink(path) or os.stat(path).st_mode & 0o777 != 0o600:
            told.append("a file that is made isn't its owner's alone")


def try_folders():
    with tempfile.TemporaryDirectory() as place:
        for folder in ("D", "", "D/E"):
            compare(f"no folder {folder!r}", run(place, folder), (3, "", NO_REPORT + f"plc: {folder}: there is no folder of this name\n"))
        os.symlink("loop", os.path.join(place, "loop"))
        compare("a link to itself for the folder", run(place, "loop"), (3, "", "plc: loop: this folder's lock can't be opened\n"))
        os.remove(os.path.join(place, "loop"))
        with open(os.path.join(place, "file"), "wb"):
            pass
        ran = run(place, "file")
        if (ran.returncode, ran.stdout) != (3, ""):
            told.append(f"a file for the folder: {ran}")
        if sorted(os.listdir(place)) != ["file"]:
            told.append(f"files were made: {os.listdir(place)}")
        os.mkdir(os.path.join(place, "D"))
        compare("a slash behind", run(place, "D/"), (0, lines(1, 1), ""))
        with open(os.path.join(place, "D", "R2.inc"), "wb") as file:
            file.write(b"x")
        compare("the second file", run(place), (3, "", f"{NO_REPORT}plc: D/R2.inc: Unreadable\n"))
        holds("the first file", os.path.join(place, "D", "R1.inc"), b"2\n")
        with open(os.path.join(place, "D", "R2.inc"), "wb") as file:
            file.write(b"41\n")
        with open(os.path.join(place, "D", "R1.tmp"), "wb") as file:
            file.write(b"77\nrest of a crash")
        compare("what a crash left", run(place), (0, lines(3, 42), ""))
        if sorted(os.listdir(os.path.join(place, "D"))) != ["R1.inc", "R2.inc"]:
            told.append("other files than those of the resources are left")


def main():
    for content, answer in CONTENTS:
        try_content(content, answer)
    refused("a folder", folder_instead, "Unreadable")
    refused("a pipe", pipe_instead, "Unreadable")
    refused("a link to nothing", link_to_nothing, "Unreadable")
    refused("a link to itself", link_to_itself, "Unreadable")
    refused("a file without end", endless, "Unreadable")
    refused("a folder for the temporary file", temporary_is_a_folder, "Unwritable")
    refused("a full disk", lambda _place, _path: None, "Unwritable", before=full_disk)
    if os.geteuid() != 0:
        refused("no permission to read", lambda _place, path: os.chmod(path, 0), "Unreadable")
        refused("no permission to write", lambda place, _path: os.chmod(os.path.join(place, "D"), 0o500), "Unwritable")
    try_links()
    try_folders()
    print("\n".join(told) or "each folder has its answer")


main()
