"""Runs a plant with one retained variable over folders of state: what is in the task's file before, what is answered, and what is left."""
import os
import resource
import signal
import subprocess
import sys
import tempfile

PLC = sys.argv[1]
HERE = os.getcwd()
NO_REPORT = "plc: the threads gave no report: Keeper\n"
told = []

# The content of the file, and the value with which the run begins; None where it is Unreadable.
CONTENTS = [
    (None, 0),
    (b"H.M=0\n", 0),
    (b"H.M=1\n", 1),
    (b"", None),
    (b"\n", None),
    (b"H.M=1", None),
    (b"H.M=1\r\n", None),
    (b"H.M=1\r", None),
    (b"H.M=1\n\n", None),
    (b"\nH.M=1\n", None),
    (b"H.M=1\nH.M=1\n", None),
    (b"H.M=1\nH.K=1\n", None),
    (b"H.X=1\n", None),
    (b"H.K=1\n", None),
    (b"h.m=1\n", None),
    (b"M=1\n", None),
    (b"H.=1\n", None),
    (b"HOLD.M=1\n", None),
    (b"R1.H.M=1\n", None),
    (b"H.M=TRUE\n", None),
    (b"H.M=01\n", None),
    (b"H.M=2\n", None),
    (b"H.M=-0\n", None),
    (b"H.M=+1\n", None),
    (b"H.M=1_0\n", None),
    (b"H.M=T#1ms\n", None),
    (b"H.M=\n", None),
    (b"H.M\n", None),
    (b"H.M==1\n", None),
    (b"H.M:=1\n", None),
    (b"H.M=1;\n", None),
    (b" H.M=1\n", None),
    (b"H.M =1\n", None),
    (b"H.M= 1\n", None),
    (b"H.M=1 \n", None),
    (b"# H.M\nH.M=1\n", None),
    (b"H.M=1\0\n", None),
    (b"H.M=1\n\0", None),
    (b"H.M=\xff\n", None),
    (b"\xef\xbb\xbfH.M=1\n", None),
    (b"H.M=1" + b"0" * 100000 + b"\n", None),
    (b"H.M=1\n" * 100000, None),
]


def run(place, inputs=(), before=None, until="10"):
    words = [PLC, "run", os.path.join(HERE, "it.plant"), "--until", until, "--paced", "--state", "D", *inputs]
    return subprocess.run(words, cwd=place, capture_output=True, text=True, timeout=60, preexec_fn=before)


def compare(what, found, wanted):
    if found != wanted:
        told.append(f"{what}: {found!r}, not {wanted!r}")


def holds(what, place, name, wanted):
    path, found = os.path.join(place, "D", name), None
    if os.path.isfile(path):
        with open(path, "rb") as file:
            found = file.read()
    compare(f"{what}: {name} holds", found, wanted)


def made(place, content):
    os.mkdir(os.path.join(place, "D"))
    path = os.path.join(place, "D", "R1.0.ret")
    if content is not None:
        with open(path, "wb") as file:
            file.write(content)
    return path


def line(incarnation, q, l=0):
    return f"EVAL 1 R1.TICK {incarnation}.1 TAKES - GIVES H.Q={q} H.L={l}\nREPLAY equal\n"


def try_unreadable(what, place, content):
    """The run doesn't start and leaves the file, but its incarnation is spent; once the file is mended the next one starts."""
    ran = run(place)
    compare(what, (ran.returncode, ran.stdout), (3, ""))
    if not ran.stderr.startswith(NO_REPORT) or "D/R1.0.ret" not in ran.stderr:
        told.append(f"{what}: is told as {ran.stderr!r}")
    holds(what, place, "R1.0.ret", content)
    holds(what, place, "R1.inc", b"1\n")


def try_content(content, value):
    what = content[:40] if content else content
    with tempfile.TemporaryDirectory() as place:
        path = made(place, content)
        if value is None:
            try_unreadable(what, place, content)
            with open(path, "wb") as file:
                file.write(b"H.M=1\n")
            compare(f"{what}, mended", run(place).stdout, line(2, 1))
        else:
            ran = run(place)
            compare(what, (ran.returncode, ran.stdout, ran.stderr), (0, line(1, value), ""))
            holds(what, place, "R1.0.ret", b"H.M=%d\n" % value)
            compare(f"{what}, once more", run(place, ["%IX0=1"]).stdout, line(2, 1, 1))
            holds(what, place, "R1.0.ret", b"H.M=1\n")
            compare(f"{what}, left", sorted(os.listdir(os.path.join(place, "D"))), ["R1.0.ret", "R1.inc"])


def try_spoiled(what, spoil):
    with tempfile.TemporaryDirectory() as place:
        path = made(place, b"H.M=1\n")
        os.remove(path)
        spoil(path)
        try_unreadable(what, place, None if not os.path.isfile(path) else b"H.M=1\n")


def try_link():
    """A link to a file is followed, and then replaced."""
    with tempfile.TemporaryDirectory() as place:
        path = made(place, None)
        with open(os.path.join(place, "kept"), "wb") as file:
            file.write(b"H.M=1\n")
        os.symlink("../kept", path)
        compare("a link", run(place).stdout, line(1, 1))
        compare("a link is replaced", os.path.islink(path), False)


def four_bytes():
    """Room for a number, but not for a variable."""
    signal.signal(signal.SIGXFSZ, signal.SIG_IGN)
    resource.setrlimit(resource.RLIMIT_FSIZE, (4, 4))


def try_full_disk(content):
    """What can't be kept is told; the evaluations stand, and the file stays as it was."""
    with tempfile.TemporaryDirectory() as place:
        made(place, content)
        ran = run(place, ["%IX0=1"], four_bytes, "20")
        evaluations = "".join(f"EVAL {k} R1.TICK 1.{k} TAKES - GIVES H.Q=1 H.L=1\n" for k in (1, 2))
        compare("a full disk", (ran.returncode, ran.stdout), (3, f"{evaluations}FAULT R1 1 Keeper\nFAULT R1 2 Keeper\nREPLAY equal\n"))
        holds("a full disk", place, "R1.0.ret", content)
        compare("room again", run(place).stdout, line(2, 0))
        holds("room again", place, "R1.0.ret", b"H.M=0\n")


def try_not_writable():
    """The incarnation can't be raised, so nothing begins."""
    with tempfile.TemporaryDirectory() as place:
        made(place, b"H.M=0\n")
        os.chmod(os.path.join(place, "D"), 0o500)
        ran = run(place, ["%IX0=1"])
        os.chmod(os.path.join(place, "D"), 0o700)
        compare("no permission to write", (ran.returncode, ran.stdout, ran.stderr), (3, "", NO_REPORT))
        holds("no permission to write", place, "R1.0.ret", b"H.M=0\n")
        holds("no permission to write", place, "R1.inc", None)


def no_permission(path):
    with open(path, "wb") as file:
        file.write(b"H.M=1\n")
    os.chmod(path, 0)


def main():
    for content, value in CONTENTS:
        try_content(content, value)
    try_spoiled("a folder", os.mkdir)
    try_spoiled("a pipe", os.mkfifo)
    try_spoiled("a link to nothing", lambda path: os.symlink("nothing", path))
    try_spoiled("a link to itself", lambda path: os.symlink(path, path))
    try_spoiled("a file without end", lambda path: os.symlink("/dev/zero", path))
    try_link()
    try_full_disk(None)
    try_full_disk(b"H.M=0\n")
    if os.geteuid() != 0:
        try_not_writable()
    print("\n".join(told) or "each folder has its answer")


main()
