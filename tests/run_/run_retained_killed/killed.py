"""Kills runs over one folder in the middle: what they kept is whole, and the next run goes on from it."""
import re
import signal
import subprocess
import sys
import time

WORDS = [sys.argv[1], "run", "it.plant", "--state", ".", "--until"]
SECONDS = 60
told = []


def read(name):
    try:
        with open(name, encoding="ascii") as file:
            return file.read()
    except FileNotFoundError:
        return ""


def total():
    """What is kept; None where it isn't whole."""
    found = re.fullmatch(r"T\.TOTAL=([0-9]+)\n", read("R1.0.ret"))
    return int(found[1]) if found else None


def kill_one(before):
    """Kills a run once it has kept more than before."""
    run = subprocess.Popen([*WORDS, "100000"], stdout=subprocess.DEVNULL)
    ends = time.monotonic() + SECONDS
    while (total() or 0) <= before and run.poll() is None and time.monotonic() < ends:
        time.sleep(0.01)
    time.sleep(0.05)
    run.send_signal(signal.SIGKILL)
    run.wait()


def main():
    last = 0
    for incarnation in (1, 3, 5, 7, 9):
        kill_one(last)
        kept = total()
        if kept is None or kept < last or read("R1.inc") != f"{incarnation}\n":
            told.append(f"after {last} was kept {read('R1.0.ret')!r} in incarnation {read('R1.inc')!r}")
            break
        next_run = subprocess.run([*WORDS, "1"], capture_output=True, text=True)
        line = f"EVAL 1 R1.TICK {incarnation + 1}.1 TAKES - GIVES T.N={kept}\nREPLAY equal\n"
        if (next_run.returncode, next_run.stdout, total()) != (0, line, kept):
            told.append(f"{kept}: {next_run}, and then {total()}")
        last = kept
    print("\n".join(told) or "what was kept goes on")


main()
