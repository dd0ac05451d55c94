"""A node that runs, what is written to its inputs, and what it writes."""
import contextlib
import errno
import glob
import itertools
import os
import re
import select
import signal
import subprocess
import tempfile
import threading
import time
from collections import Counter

from account import ENDED, Account, Wrong, has_answer, lines_in, lives_in, parted
from rules.cycle import FIELD, NEIGHBOURS
from rules.plant_text import find, read_plant
from rules.rows import joined

PLC = os.path.abspath(os.environ.get("PLC", os.path.join(os.path.dirname(os.path.abspath(__file__)), "..", "..", "plc")))
# Nobody waits longer than this for anything that is to come, however slow the machine is.
SECONDS = 300
# Where the files lie that a node writes, so that a slow disk costs no time.
MEMORY = "/dev/shm" if os.access("/dev/shm", os.W_OK) else None
# Words more for each node, of how its journal is noted.
NOTING = []
# So many lines are a flood.
FLOOD = int(os.environ.get("FLOOD", 100_000))


def wait_for(it, what):
    """Waits for what comes by itself, and isn't told."""
    ends = time.monotonic() + SECONDS
    while not it():
        if time.monotonic() > ends:
            raise Wrong(f"waited for: {what}")
        time.sleep(0.001)


class Input:
    """What is written to one input of a node, by one writer after the other."""

    def __init__(self):
        self.file, self.written, self.lines = None, bytearray(), []

    def write(self, text):
        """Writes a text; whether somebody read it."""
        text = text if isinstance(text, bytes) else text.encode()
        self.written += text
        try:
            while text:
                text = text[os.write(self.file, text) :]
        except BrokenPipeError:
            return False
        return True

    def end(self, *told):
        """The writer ends; what is behind its last line feed is a line too."""
        if self.file is not None:
            os.close(self.file)
        self.file = None
        self.lines += [*lines_in(bytes(self.written)), *told]
        self.written.clear()

    def given(self):
        return [*self.lines, *lines_in(bytes(self.written))]


class Place:
    """A folder with a plant, in which nodes of it run."""

    def __init__(self, text, judged_by=None):
        """`judged_by` is a plant of the same meaning that is read in less time."""
        self.plant = read_plant(judged_by or text)
        self.folder = tempfile.TemporaryDirectory(dir=MEMORY)
        with open(self.path("it.plant"), "w", encoding="utf-8", newline="") as file:
            file.write(text)

    def __enter__(self):
        return self

    def __exit__(self, *_):
        self.folder.cleanup()

    def path(self, name):
        return os.path.join(self.folder.name, name)

    def read(self, name):
        with open(self.path(name), encoding="utf-8", errors="surrogateescape", newline="") as file:
            return file.read()

    def journals(self, resource):
        """The files of the journal of a resource."""
        return sorted(it for it in os.listdir(self.folder.name) if re.fullmatch(rf"{resource}\.journal(\.[0-9]+)?", it))

    def journal(self, resource):
        """What is noted in them, if each goes on from the one before."""
        rows = joined([(it, self.read(it)) for it in self.journals(resource)])
        if len(rows) > 1:
            raise Wrong(f"{rows[1:]} go on from no other journal")
        return rows[0][1] if rows else ""

    def fifo(self, resource="R1"):
        name = f"{resource}.field"
        if not os.path.exists(self.path(name)):
            os.mkfifo(self.path(name))
        return ["--field", name]


class Running:
    """A node of a resource, with a journal. At the end of a `with` it is killed, unless it has ended, and what it did is judged."""

    def __init__(self, place, resource, *words, has_field=True, cycles=True, input_is_field=False, is_read=True, passed=()):
        self.place, self.resource = place, find(place.plant.resources, resource)
        self.has_field, self.cycles = has_field, cycles
        self.neighbours, self.field = Input(), Input()
        words = [*words, "--cycle"] if cycles else list(words)
        words = [PLC, "node", "it.plant", resource, *words, "--journal", f"{resource}.journal", *NOTING]
        self.began, self.seen = time.monotonic(), []
        how = {"stdin": subprocess.PIPE, "stdout": subprocess.PIPE, "stderr": subprocess.PIPE, "bufsize": 0}
        self.process = subprocess.Popen(words, cwd=place.folder.name, pass_fds=passed, **how)
        (self.field if input_is_field else self.neighbours).file = os.dup(self.process.stdin.fileno())
        self.process.stdin.close()
        self.written, self.sent, self.counts, self.news = bytearray(), [], Counter(), threading.Condition()
        self.has_ended, self.must_answer_all = False, False
        self.reader = threading.Thread(target=self.read, daemon=True)
        self.is_read = is_read

    def __enter__(self):
        try:
            if self.is_read:
                self.begin_to_read()
        except Wrong:
            self.kill()
            raise
        return self

    def begin_to_read(self):
        self.reader.start()
        self.wait("START")

    def __exit__(self, kind, *_):
        self.kill()
        for it in (self.neighbours, self.field):
            if it.file is not None:
                it.end()
        if kind in (None, Wrong):
            self.judge()

    # What it writes.

    def read(self):
        begun = b""
        while piece := os.read(self.process.stdout.fileno(), 1 << 16):
            *lines, begun = (begun + piece).split(b"\n")
            with self.news:
                self.written += piece
                self.counts.update(line.split(b" ", 1)[0].decode("ascii", "replace") for line in lines)
                self.sent += [line for line in lines if line.startswith(b"SEND ")]
                self.seen.append((self.counts["EVAL"], (time.monotonic() - self.began) * 1000))
                self.news.notify()
        with self.news:
            self.has_ended = True
            self.news.notify()

    def wait(self, word, count=1):
        """Waits until so many lines begin with a word."""
        self.wait_until(lambda: self.counts[word] >= count, f"{count} lines {word}")

    def wait_more(self, word, count=1):
        self.wait(word, self.counts[word] + count)

    def wait_until(self, it, what):
        with self.news:
            self.news.wait_for(lambda: it() or self.has_ended, SECONDS)
            if not it():
                raise Wrong(f"waited for: {what}; there were {dict(self.counts)}{self.told()}")

    def wait_answered(self):
        """Waits until each line that was given has its answer."""
        count = sum(has_answer(it) for input in (self.field, self.neighbours) for it in input.given())
        self.wait_until(lambda: self.answered() >= count, f"{count} answers")
        self.must_answer_all = True

    def answered(self):
        others = ("SEND", "OVERRUN", "START", *(("EVAL",) if self.cycles else ()))
        return sum(self.counts.values()) - sum(self.counts[it] for it in others)

    def started(self):
        """The incarnation in which it began."""
        return int(re.search(rb"(?m)^START \S+ (\d+)$", self.written)[1])

    def must_be_answered(self):
        self.must_answer_all = True

    def sent_since(self, count):
        """What it sent to the other node behind so many lines."""
        with self.news:
            return [line.split(b" ", 2)[2] + b"\n" for line in self.sent[count:]]

    # What is written to it.

    def flood(self, input, lines, between=lambda: None, word="EVAL"):
        """Writes these lines to an input, as many as a flood has, and what comes between; then on, until that is answered, and
        evaluations are made."""
        piece = "".join(f"{line}\n" for line in lines).encode()
        for _ in range(0, FLOOD, len(lines)):
            input.write(piece)
        wanted = {word: self.counts[word] + 1, "EVAL": self.counts["EVAL"] + 3}
        between()
        for _ in range(0, 50 * FLOOD, len(lines)):
            if all(self.counts[it] >= most for it, most in wanted.items()):
                return
            input.write(piece)
        raise Wrong(f"waited for {wanted} in a flood, and there were {dict(self.counts)}")

    def write_until_full(self, input, line):
        """Writes a line again and again, until a second goes by in which it isn't read, or a flood is; how often."""
        os.set_blocking(input.file, False)
        count = 0
        try:
            while count < FLOOD and select.select([], [input.file], [], 1)[1]:
                with contextlib.suppress(BlockingIOError):
                    os.write(input.file, line)
                    input.written += line
                    count += 1
        finally:
            os.set_blocking(input.file, True)
        return count

    def stop_for(self, seconds):
        """Stops the whole process meanwhile."""
        self.process.send_signal(signal.SIGSTOP)
        os.waitpid(self.process.pid, os.WUNTRACED)
        time.sleep(seconds)
        self.process.send_signal(signal.SIGCONT)

    def kill_at(self, lines, seconds):
        """Kills it so many seconds after so many evaluations more."""
        with contextlib.suppress(Wrong):
            self.wait_more("EVAL", lines)
        time.sleep(seconds)
        self.process.kill()

    def open_field(self):
        """A writer of its FIFO, once the one before is forgotten."""
        wait_for(lambda: not self.holds_field(), "the field's file is closed")
        wait_for(self.opens, "the field's file is opened")

    def field_path(self):
        return os.path.realpath(self.place.path(f"{self.resource.name}.field"))

    def holds_field(self):
        return any(linked(it) == self.field_path() for it in glob.glob(f"/proc/{self.process.pid}/fd/*"))

    def opens(self):
        try:
            self.field.file = os.open(self.field_path(), os.O_WRONLY | os.O_NONBLOCK)
        except OSError as why:
            if why.errno == errno.ENXIO:
                return False
            raise
        os.set_blocking(self.field.file, True)
        return True

    def end_field(self):
        """The writer of the field ends, and the node tells it."""
        told = self.counts["FIELD"]
        self.field.end(ENDED)
        self.wait("FIELD", told + 1)

    # How it ends.

    def kill(self):
        self.process.kill()
        self.process.wait()
        if self.reader.is_alive():
            self.reader.join()

    def wait_for_end(self):
        try:
            self.process.wait(SECONDS)
        except subprocess.TimeoutExpired:
            raise Wrong("it doesn't end") from None

    def told(self):
        return f", {self.process.stderr.read().decode()!r}" if self.has_ended else ""

    def judge(self):
        """Raises what is wrong with what it wrote and noted."""
        if self.process.returncode not in (0, -signal.SIGKILL):
            raise Wrong(f"status {self.process.returncode}{self.told()}")
        lives = lives_in(self.place.journal(self.resource.name))
        given = {FIELD: self.field.lines, NEIGHBOURS: self.neighbours.lines}
        self.account = Account(self.place.plant, self.resource, given, lives[-1] if lives else [], self.has_field, self.cycles)
        lines, rest = parted(bytes(self.written))
        self.account.follow(lines)
        self.account.end(rest, self.process.returncode != 0)
        if self.must_answer_all:
            self.account.must_be_answered()
        self.must_not_be_ahead()

    def must_not_be_ahead(self):
        """Its clock began behind the process: when an evaluation is seen, it can't be later by that than by the one here."""
        seen = iter(self.seen)
        count, at = 0, 0
        for number, reading in enumerate(self.account.readings, 1):
            while count < number:
                count, at = next(seen)
            if reading > at:
                raise Wrong(f"evaluation {number} is of {reading} ms, and was seen after {at:.3f} ms")


def linked(path):
    try:
        return os.readlink(path)
    except OSError:
        return None
