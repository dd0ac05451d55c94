"""Whether what a node with a field wrote and noted is what the rules of tests/model make of its inputs.

The journal tells at which reading of its clock each evaluation was made: the sum of the task's dts. The cycle of the model, asked
at these readings, has to ask for these evaluations; the node of the model, given the same lines in the same order, has to write and
note the same. Which of its inputs a line is answered of shows by the answer's first word, but for REFUSED: there each way is
followed by which the answers of each input come in its order.
"""
import os
import sys

HERE = os.path.dirname(os.path.realpath(__file__))
sys.path.insert(0, os.path.join(HERE, "..", "model"))
from rules.cycle import FIELD, NEIGHBOURS, FieldNode
from rules.inputs import parts_of
from rules.journals import Evaluate, evaluate_of, start_of
from rules.node import Node, Refused, Told, is_silent, refuse_too_long
from rules.plant_text import find

# In the place of a line: the end of what was written to the field, which is told once.
ENDED = object()
ORIGINS = {"INPUT": FIELD, "FIELD": FIELD, "RESTART": FIELD, "EVAL": FIELD, "MESSAGE": NEIGHBOURS, "HELLO": NEIGHBOURS}


class Wrong(Exception):
    pass


class Opened:
    """What a START tells of the folder of state: the incarnation, and what is retained."""

    def __init__(self, start):
        self.incarnation, self.kept = start.incarnation - 1, start.kept

    def raised(self, _resource):
        self.incarnation += 1
        return self.incarnation

    def retained(self, task):
        return self.kept[task]

    def replace(self, _resource, _name, _text):
        pass


class Account:
    """One life of a node: what its inputs were given, as lines and ENDED; what it noted; then what it wrote, line by line."""

    def __init__(self, plant, resource, given, noted, has_field=True, cycles=True):
        self.resource, self.noted, self.has_field = resource, noted, has_field
        start = noted and start_of(plant, noted[0])
        if not start or start.resource is not resource:
            raise Wrong(f"the journal begins with {noted[:1]}")
        self.at, self.made, self.readings = 0, [], []
        self.model = FieldNode(Node(plant, resource, Opened(start), self.note), has_field, cycles)
        self.kept = start.kept
        self.steps = {origin: list(self.steps_of(origin, given.get(origin, ()))) for origin in (FIELD, NEIGHBOURS)}
        # How many lines of the field and of the neighbours are answered, each way in which it can be.
        self.places = {(0, 0)}

    def steps_of(self, origin, lines):
        """What each line asks for, or the answer that refuses it whatever the node is; without those that have none."""
        for line in lines:
            try:
                step = self.model.end_field if line is ENDED else self.model.step_of(origin, line)
                if step is not list:
                    yield step
            except Refused as kind:
                yield f"REFUSED {kind}"

    def note(self, line):
        if self.at == len(self.noted):
            raise Wrong(f"it was done, and isn't noted: {line}")
        if self.noted[self.at] != line.lstrip("\n"):
            raise Wrong(f"noted is {self.noted[self.at]}, and not {line}")
        self.at += 1

    # What is written.

    def follow(self, lines):
        """Follows all lines that were written."""
        groups = list(groups_of(lines))
        for number, (at, group) in enumerate(groups):
            try:
                self.compare(group, self.model.node.first if number == 0 else self.expected(group[-1]))
            except Wrong as why:
                raise Wrong(f"standard output, line {at}: {why}") from None
        if not groups:
            raise Wrong("nothing was written")

    def compare(self, found, expected):
        if found != expected:
            raise Wrong(f"{found}, and not {expected}")
        if found[-1].startswith("EVAL"):
            self.made.append(found[-1])
            if self.model.cycle:
                self.readings.append(self.model.cycle.latest)

    def expected(self, closing):
        """What is to be written where this is the closing line."""
        word = closing.split(" ")[0]
        if word == "EVAL" and self.model.cycle:
            return self.evaluated()
        if word == "REFUSED":
            self.places = {place for origin in self.steps for place in self.behind(origin, lambda step: refusal_now(step) == closing)}
        else:
            origin = ORIGINS.get(word, NEIGHBOURS) if self.has_field else NEIGHBOURS
            step = self.next_of(origin)
            self.places = {place for place in self.behind(origin, callable)}
        if not self.places:
            raise Wrong(f"no input has a line of which this is the next answer: {closing}")
        return [closing] if word == "REFUSED" else step()

    def behind(self, origin, fits):
        """The places behind a line of an input, if it fits."""
        for field, neighbours in self.places:
            place = field if origin == FIELD else neighbours
            if place < len(self.steps[origin]) and fits(self.steps[origin][place]):
                yield (field + 1, neighbours) if origin == FIELD else (field, neighbours + 1)

    def next_of(self, origin):
        """The next line of an input that is done, by whichever way: each of them has done as many."""
        steps, at = self.steps[origin], max(place[origin == NEIGHBOURS] for place in self.places)
        while at < len(steps) and not callable(steps[at]):
            at += 1
        return steps[at] if at < len(steps) else None

    def evaluated(self):
        """What is to be written of the evaluation that is noted next."""
        line = self.noted[self.at] if self.at < len(self.noted) else ""
        event = evaluate_of(parts_of(line))
        task = find(self.resource.tasks, event.task) if isinstance(event, Evaluate) else None
        if not task:
            raise Wrong(f"an evaluation is told, and noted is {line!r}")
        cycle = self.model.cycle
        reading = cycle.evaluated[task] + event.elapsed
        if reading < cycle.latest:
            raise Wrong(f"{task.full_name} is evaluated at {reading} ms, behind an evaluation at {cycle.latest} ms")
        expected = self.model.evaluate(reading)
        if not expected:
            raise Wrong(f"{task.full_name} is evaluated at {reading} ms, at which no task is due")
        return expected

    # The end.

    def end(self, rest, was_killed):
        """What remains: lines that were noted and not told, and the beginning of an answer. A node that wasn't killed leaves nothing."""
        self.left = [self.copied_left()]
        untold = []
        while self.at < len(self.noted) and was_killed:
            untold.append(self.next_noted())
            self.left.append(self.copied_left())
        if untold and rest.startswith(("SEND", "OVERRUN", "EVAL")) and " HELLO " not in rest:
            self.compare_rest(rest, untold[0])
        elif not untold and rest.startswith("SEND") and was_killed:
            # (a stray message, say, which is answered and not noted)
            self.compare_rest(rest, self.next_told())
        elif not untold and (rest.startswith(("SEND", "OVERRUN")) or (rest and not was_killed)):
            raise Wrong(f"written, and not noted: {rest!r}")
        if self.at < len(self.noted):
            raise Wrong(f"noted, and not done: {self.noted[self.at]}")

    def copied_left(self):
        return dict(self.model.node.core.left)

    def next_noted(self):
        """What is to be written of the line that was noted next, behind those that weren't noted."""
        word, *behind = parts_of(self.noted[self.at])
        word, at = word.upper(), self.at
        if word == "EVAL" and self.model.cycle:
            while self.model.told() != behind[2:]:
                self.do_next_of(FIELD)
            return self.evaluated()
        while self.at == at:
            told = self.do_next_of(ORIGINS[word] if self.has_field else NEIGHBOURS)
        return told

    def do_next_of(self, origin):
        """Does the next line of an input, which isn't told; what is to be written of it."""
        steps, at = self.steps[origin], max(place[origin == NEIGHBOURS] for place in self.places)
        while at < len(steps) and not callable(steps[at]):
            at += 1
        if at == len(steps):
            raise Wrong(f"noted, and given by no input: {self.noted[self.at]}")
        self.places = {(at + 1, it[1]) if origin == FIELD else (it[0], at + 1) for it in self.places}
        return steps[at]()

    def next_told(self):
        """What is to be written of the neighbours' next line."""
        step = self.next_of(NEIGHBOURS)
        return step() if step else []

    def compare_rest(self, rest, expected):
        whole = "".join(f"{line}\n" for line in expected)
        if not whole.startswith(rest):
            raise Wrong(f"standard output ends with {rest!r}, not with a beginning of {whole!r}; noted last is {self.noted[-1]}")

    def must_be_answered(self):
        """Each line that was given has its answer."""
        if tuple(len(self.steps[origin]) for origin in (FIELD, NEIGHBOURS)) not in self.places:
            raise Wrong(f"of the lines of field and neighbours are answered {max(self.places)}")

    def must_end_by(self, until):
        if self.model.cycle.latest > until:
            raise Wrong(f"an evaluation at {self.model.cycle.latest} ms, and the node ends at {until}")


def refusal_now(step):
    """The answer that refuses a line as the node is by now; else what it does."""
    return "REFUSED TooHigh" if isinstance(step, Told) and step.is_too_high() else step


def has_answer(line):
    """Whether anything is written of a line."""
    try:
        if line is not ENDED:
            refuse_too_long(line)
        return line is ENDED or not is_silent(line)
    except Refused:
        return True


def groups_of(lines):
    """Each closing line with those before it, and the number of the first of them."""
    group, first = [], 1
    for number, line in enumerate(lines, 1):
        group.append(line)
        if not line.startswith(("SEND ", "OVERRUN ")):
            yield first, group
            group, first = [], number + 1


def lines_in(text):
    """The lines of what was written to an input; the last one may be without its line feed."""
    lines = text.decode("utf-8", "surrogateescape").split("\n")
    return [line.removesuffix("\r") for line in (lines if lines[-1] else lines[:-1])]


def parted(written):
    """The answers that are whole, as lines, and what is behind them."""
    lines = written.decode("ascii", "replace").split("\n")
    whole = len(lines) - 1
    while whole and lines[whole - 1].startswith(("SEND ", "OVERRUN ")):
        whole -= 1
    return lines[:whole], "\n".join(lines[whole:])


def lives_in(journal):
    """The lines of each life that is noted in a journal, from START on; what was torn isn't noted."""
    lives = []
    for line in journal.split("\n"):
        if line.endswith(";"):
            if line.startswith("START "):
                lives.append([])
            lives[-1].append(line[:-1])
    return lives
