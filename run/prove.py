"""prove.py [WORD..]: proves and builds the program plc, and then runs it with these words.

As many crates are proved at once as there are processors and memory for, or as RT_JOBS says: a crate as soon as those
that it names stand, the one with the longest chain of others behind it first. What was proved before is kept, also
where this is ended in the middle: the next call goes on.
"""
import fcntl
import os
import re
import shutil
import signal
import subprocess
import sys
import time

sys.dont_write_bytecode = True
from crates import PROGRAM, ROOT, around_proofs, crates_of, is_proved, lines_of, tell
from room import Room, place_of_rooms

SECONDS_BETWEEN_LINES = 300


class Proof:
    """The proof of one crate: how long it is, how long the longest chain that begins with it, and how far it is."""

    def __init__(self, crate, below, lines):
        self.crate, self.below, self.lines = crate, below, lines
        self.chain = lines
        self.process = self.room = None
        self.jobs = 0
        self.is_done = False
        self.log = f"{ROOT}/crates/{crate}/out/build.log"

    def is_running(self):
        return self.process is not None and not self.is_done

    def begin(self, jobs, around, place):
        words = ["--jobs", str(jobs)]
        words = ["run", *words, "--", "--help"] if self.crate == PROGRAM else ["lib", *words]
        os.makedirs(os.path.dirname(self.log), exist_ok=True)
        self.room = Room(self.crate, place)
        with open(self.log, "wb") as log:
            how = {"cwd": self.room.folder, "env": around, "stdin": subprocess.DEVNULL}
            self.process = subprocess.Popen([sys.executable, f"{ROOT}/run/rt.py", *words], stdout=log, stderr=subprocess.STDOUT, **how)
        self.jobs = jobs

    def end(self):
        """Waits for the end; the status."""
        status = self.process.wait()
        self.is_done = True
        self.room.leave()
        return status

    def said(self):
        """The last that rt said of it."""
        with open(self.log, "rb") as file:
            file.seek(max(0, os.path.getsize(self.log) - 4000))
            return file.read().decode(errors="replace")

    def lines_left(self):
        """How many of its lines aren't proved yet, by what rt said so far."""
        if self.is_done or not self.process:
            return 0 if self.is_done else self.lines
        counts = re.findall(r"(\d+) of (\d+)", self.said())
        at, of = map(int, counts[-1]) if counts else (0, 1)
        return self.lines - self.lines * min(at, of) // max(of, 1)


def proofs_to_make():
    """A proof for each crate of the program. One that stands, over others that stand, has no lines."""
    below = crates_of(PROGRAM)
    proofs, waiting = {}, list(below)
    while waiting:
        crate = waiting.pop(0)
        if not all(it in proofs for it in below[crate]):
            waiting.append(crate)
            continue
        stands = is_proved(crate) and not any(proofs[it].lines for it in below[crate])
        proofs[crate] = Proof(crate, below[crate], 0 if stands else lines_of(crate))
    for proof in reversed(proofs.values()):
        for low in proof.below:
            proofs[low].chain = max(proofs[low].chain, proofs[low].lines + proof.chain)
    return list(proofs.values())


class Proofs:
    """The proofs of all crates of the program, lowest first."""

    def __init__(self):
        self.around, self.place = around_proofs(), place_of_rooms()
        self.at_once = max(1, int(self.around["RT_JOBS"]))
        self.all = proofs_to_make()
        self.begun = time.monotonic()
        self.shown, self.shown_at = "", 0.0

    def running(self):
        return [it for it in self.all if it.is_running()]

    def ready(self):
        """The proofs that can begin, the longest chain first."""
        done = {it.crate for it in self.all if it.is_done}
        found = [it for it in self.all if not it.process and done.issuperset(it.below)]
        return sorted(found, key=lambda it: -it.chain)

    def begin_ready(self):
        """Begins what can begin. A crate gets the share of all jobs that its chain has of what is left, but leaves one for each other that can begin."""
        free = self.at_once - sum(it.jobs for it in self.running())
        left = max(1, sum(it.lines_left() for it in self.all))
        ready = self.ready()
        for others, proof in zip(range(len(ready) - 1, -1, -1), ready):
            if free < 1:
                return
            jobs = max(1, min(free - others, round(self.at_once * proof.chain / left)))
            proof.begin(jobs, self.around, self.place)
            free -= jobs

    def first_failed(self):
        """Notes which proofs ended; the first that failed, if one did."""
        for proof in self.running():
            if proof.process.poll() is not None and proof.end():
                return proof
        return None

    def end_all(self):
        running = self.running()
        for proof in running:
            proof.process.terminate()
        for proof in running:
            proof.end()

    def state(self):
        """The crates at work, how far all is, and about how long it still takes."""
        in_all = sum(it.lines for it in self.all)
        done = in_all - sum(it.lines_left() for it in self.all)
        seconds = time.monotonic() - self.begun
        line = f"proving {', '.join(it.crate for it in self.running())}"
        line += f" ({sum(it.is_done for it in self.all)} of {len(self.all)} done)"
        if in_all:
            line += f", {100 * done // in_all} % of all, {seconds // 60:.0f} min so far"
            if seconds >= 30 and 50 * done >= in_all:
                line += f", about {seconds * (in_all - done) / done // 60 + 1:.0f} min left"
        return line

    def show(self):
        """On a terminal one line that moves; else a line where other crates are at work, and one each five minutes."""
        crates = [it.crate for it in self.running()]
        since = time.monotonic() - self.shown_at
        if sys.stderr.isatty():
            if since >= 1:
                line = f"plc: {self.state()}"[: shutil.get_terminal_size().columns - 1]
                print(f"\r\033[K{line}", end="", file=sys.stderr, flush=True)
                self.shown_at = time.monotonic()
        elif crates and (crates != self.shown or since >= SECONDS_BETWEEN_LINES):
            tell(self.state())
            self.shown, self.shown_at = crates, time.monotonic()

    def prove(self):
        """Proves all; the proof that failed, if one did."""
        try:
            while not all(it.is_done for it in self.all):
                self.begin_ready()
                self.show()
                time.sleep(0.05)
                failed = self.first_failed()
                if failed:
                    return failed
            return None
        finally:
            if sys.stderr.isatty():
                print("\r\033[K", end="", file=sys.stderr, flush=True)
            self.end_all()


def main(words):
    for number in (signal.SIGINT, signal.SIGTERM, signal.SIGHUP):
        signal.signal(number, lambda it, _: sys.exit(128 + it))
    if not shutil.which("rt"):
        tell("the program isn't built yet, and rt, the command of the Rattle kit, isn't on PATH")
        return 3
    # One call builds at a time; another one waits, and finds what this one made.
    folder = os.open(f"{ROOT}/crates", os.O_RDONLY)
    fcntl.flock(folder, fcntl.LOCK_EX)
    proofs = Proofs()
    tell(
        f"the program is proved and built first: {len(proofs.all)} crates, {proofs.at_once} at once."
        " From a fresh clone this takes about an hour on four processors, later only what changed"
    )
    failed = proofs.prove()
    if failed:
        print("\n".join(failed.said().splitlines()[-20:]), file=sys.stderr)
        tell(f"{failed.crate} isn't proved; all that was said stands in {failed.log}")
        return 3
    program = f"{ROOT}/crates/{PROGRAM}/out/{PROGRAM}"
    os.utime(program)
    # (Python ignores it, and the program would inherit that)
    signal.signal(signal.SIGPIPE, signal.SIG_DFL)
    os.execv(program, [program, *words])


sys.exit(main(sys.argv[1:]))
