"""Watches the checks that rt ci starts: which crate and part is at work, and what each took."""
import os
import re
import threading
import time

from crates import ROOT, listed_crates

TICKS = os.sysconf("SC_CLK_TCK")
PROOF, TESTS, EDITS = "proof", "tests", "edits"


def edits_by_crate():
    """How many must-fail edits each crate of crates.txt has."""
    count = {}
    for crate in listed_crates():
        folder = f"{ROOT}/crates/{crate}/must-fail"
        names = os.listdir(folder) if os.path.isdir(folder) else []
        count[crate] = sum(name.endswith(".edit") for name in names)
    return count


def has_tests(crate):
    for folder, _, names in os.walk(f"{ROOT}/crates/{crate}/src"):
        for name in names:
            with open(f"{folder}/{name}", encoding="utf-8") as file:
                if "#[test]" in file.read():
                    return True
    return False


def read(pid, name):
    with open(f"/proc/{pid}/{name}", encoding="utf-8", errors="replace") as file:
        return file.read()


def fields_of(pid):
    """What stands behind the name of a process in its stat: its state, its parent .."""
    return read(pid, "stat").rpartition(")")[2].split()


def parent_of(pid):
    try:
        return int(fields_of(pid)[1])
    except (OSError, IndexError):
        return None


def processor_seconds(pid):
    fields = fields_of(pid)
    return (int(fields[11]) + int(fields[12])) / TICKS


def kilobytes_at_most(pid):
    return int(re.search(r"VmHWM:\s+(\d+)", read(pid, "status"))[1])


class Part:
    """A crate's proof, its tests or its edits: what was seen of the processes that check it."""

    def __init__(self, moment):
        self.first = self.last = moment
        self.seconds, self.kilobytes, self.rooms = {}, {}, set()

    def row(self, name):
        minutes, worked = (self.last - self.first) / 60, sum(self.seconds.values()) / 60
        return f"{name:22}  {minutes:7.1f}  {worked:17.1f}  {max(self.kilobytes.values()) / 1e6:10.1f}"


class Watch(threading.Thread):
    """Looks once a second at the checks below a process, and tells of each part and edit as it begins."""

    def __init__(self, pid):
        super().__init__(daemon=True)
        self.pid, self.begun, self.parts = pid, time.monotonic(), {}
        self.edits = edits_by_crate()
        self.in_all = len(self.edits) + sum(map(bool, self.edits.values())) + sum(map(has_tests, self.edits))
        self.is_over = threading.Event()

    def run(self):
        while not self.is_over.wait(1):
            parents = {int(name): parent_of(name) for name in os.listdir("/proc") if name.isdigit()}
            for pid in parents:
                if self.is_below(pid, parents):
                    self.see(pid)

    def is_below(self, pid, parents):
        while pid and pid != self.pid:
            pid = parents.get(pid)
        return pid == self.pid

    def see(self, pid):
        try:
            words, room = read(pid, "cmdline").split("\0"), os.readlink(f"/proc/{pid}/cwd")
            if os.path.basename(words[0]) != "rattle" or "--crate-name" not in words:
                return
            seconds, kilobytes = processor_seconds(pid), kilobytes_at_most(pid)
        except (OSError, IndexError, TypeError):
            return  # it has ended meanwhile
        crate = words[words.index("--crate-name") + 1]
        kind = EDITS if "rt-edit-" in room else TESTS if "--test" in words else PROOF
        part = self.parts.setdefault((crate, kind), Part(time.monotonic()))
        part.last = time.monotonic()
        part.seconds[pid], part.kilobytes[pid] = seconds, kilobytes
        if room not in part.rooms:
            part.rooms.add(room)
            self.tell(crate, kind, len(part.rooms))

    def tell(self, crate, kind, number):
        count = self.edits.get(crate, 0)
        if kind == EDITS and number > count:
            return  # behind its edits a crate is checked once as it is
        minutes = (time.monotonic() - self.begun) / 60
        which = f" {number} of {count}" if kind == EDITS else ""
        print(f"check: {minutes:.0f} min, part {len(self.parts)} of {self.in_all}: {crate}: {kind}{which}", flush=True)

    def table(self):
        rows = [part.row(f"{crate}: {kind}") for (crate, kind), part in self.parts.items()]
        return "\n".join(["part                    minutes  processor minutes  GB at most", *rows])
