"""What ./plc does before there is a program: with an rt of its own that proves nothing, in a small repository."""
import os
import shutil
import signal
import subprocess
import sys
import time

PLC = os.path.realpath(sys.argv[1])
ROOT = os.path.realpath("root")
CRATES = {"low": "std_thing", "left": "low", "right": "low", "third": "low", "top": "left right third", "apart": "", "plc_main": "top"}
# It takes a while for each crate, notes when it begins and ends, and fails where there is a file named broken.
RT = """#!/bin/sh
crate=$(basename "$PWD")
echo "begin $crate $*" >>"$NOTES"
echo "10 of 100 functions"
trap 'echo "cut $crate" >>"$NOTES"; exit 1' TERM INT
[ -e slow ] && { sleep 30 & wait; }
sleep 0.3
[ -e broken ] && { echo "what is wrong"; exit 1; }
mkdir -p out
if [ "$1" = run ]; then
    printf '#!/bin/sh\\necho "ran $*"\\n' >out/plc_main && chmod +x out/plc_main
else
    mkdir -p out/rlib
fi
echo "end $crate" >>"$NOTES"
"""
AROUND = {**os.environ, "PATH": f"{ROOT}/bin:{os.environ['PATH']}", "NOTES": f"{ROOT}/notes", "RT_JOBS": "2"}


def write(name, text):
    os.makedirs(os.path.dirname(f"{ROOT}/{name}"), exist_ok=True)
    with open(f"{ROOT}/{name}", "w", encoding="ascii") as file:
        file.write(text)


def make_root():
    for crate in CRATES:
        write(f"crates/{crate}/src/lib.rt", "one\ntwo\n")
    write("crates.txt", "# Each crate\n" + "".join(f"{it}: {below}\n" for it, below in CRATES.items()))
    write("HANDLES", "Handles allowed: none.\n")
    write("bin/rt", RT)
    os.chmod(f"{ROOT}/bin/rt", 0o755)
    shutil.copy(PLC, f"{ROOT}/plc")
    shutil.copytree(f"{os.path.dirname(PLC)}/run", f"{ROOT}/run")


def begin(*words):
    write("notes", "")
    how = {"stdin": subprocess.DEVNULL, "stdout": subprocess.PIPE, "stderr": subprocess.PIPE, "text": True}
    return subprocess.Popen([f"{ROOT}/plc", *words], cwd=ROOT, env=AROUND, **how)


def notes():
    with open(f"{ROOT}/notes", encoding="ascii") as file:
        return [line.split()[:2] for line in file]


def expect(what, found, wanted):
    if found != wanted:
        print(f"{what}: {found!r} and not {wanted!r}")


def expect_order(found):
    """That each crate began when those that it names had ended, and that never more than two were at work."""
    at_work, ended, most = set(), set(), 0
    for what, crate in found:
        if what == "begin":
            expect(f"{crate} began before", [it for it in CRATES[crate].split() if it in CRATES and it not in ended], [])
            at_work.add(crate)
        else:
            at_work.discard(crate)
            ended.add(crate)
        most = max(most, len(at_work))
    expect("at work at once", most, 2)


def after_signal(number):
    """What is left where a signal comes in the middle: the status, and that rt was told."""
    process = begin("word")
    for _ in range(100):
        if ["begin", "left"] in notes() and ["begin", "right"] in notes():
            break
        time.sleep(0.1)
    process.send_signal(number)
    process.communicate(timeout=10)
    expect(f"status after signal {number}", process.returncode, 128 + number)
    expect(f"cut after signal {number}", sorted(crate for what, crate in notes() if what == "cut"), ["left", "right"])
    expect("program after a signal", os.path.exists(f"{ROOT}/crates/plc_main/out/plc_main"), False)


def main():
    make_root()
    for crate in ("left", "right"):
        write(f"crates/{crate}/slow", "")
    after_signal(signal.SIGINT)
    after_signal(signal.SIGTERM)
    for crate in ("left", "right"):
        os.remove(f"{ROOT}/crates/{crate}/slow")
    write("crates/right/broken", "")
    process = begin("word")
    out, told = process.communicate(timeout=60)
    log = f"{ROOT}/crates/right/out/build.log"
    expect("output of a failure", out, "")
    expect("status of a failure", process.returncode, 3)
    wanted = f"10 of 100 functions\nwhat is wrong\nplc: right isn't proved; all that was said stands in {log}\n"
    expect("end of a failure", told[-len(wanted):], wanted)
    expect("begun above a failure", [it for it in notes() if it[1] in ("top", "plc_main")], [])
    os.remove(f"{ROOT}/crates/right/broken")
    process = begin("a word", "--option")
    expect("output", process.communicate(timeout=60)[0], "ran a word --option\n")
    expect("status", process.returncode, 0)
    expect("begun", sorted(crate for what, crate in notes() if what == "begin"), sorted(set(CRATES) - {"apart"}))
    expect_order(notes())
    process = begin("again")
    expect("output of a program that stands", process.communicate(timeout=60), ("ran again\n", ""))
    expect("begun for a program that stands", notes(), [])
    os.utime(f"{ROOT}/crates/left/src/lib.rt", (time.time() + 5, time.time() + 5))
    process = begin("newer")
    expect("output where a source is newer", process.communicate(timeout=60)[0], "ran newer\n")
    expect("whether it was proved again", ["end", "left"] in notes(), True)


main()
