"""A node that runs by itself: when its tasks are evaluated, what its field is, and what each of its inputs may say."""
from dataclasses import dataclass
from functools import partial

from . import words
from .inputs import AddressTwice, BadInput, Inputs, parts_of
from .node import Refused, is_silent, refuse_too_long
from .schedule import MOST_U32

FIELD, NEIGHBOURS = "field", "neighbours"
# The words with which a line of each input may begin, where there is a field.
MAY_SAY = {FIELD: ("INPUT", "EVAL", "RESTART"), NEIGHBOURS: ("MESSAGE", "HELLO")}


@dataclass
class Asked:
    """An evaluation that a cycle asks for, and how many due moments it skips."""

    task: object
    elapsed: int
    skipped: int


class Cycle:
    """The tasks of a resource, by a clock that counts whole ms since the start. A task is due at the multiples of its interval.

    They go in rounds: each task that is due where a round begins is evaluated once, by priority and then in order.
    """

    def __init__(self, resource):
        self.resource = resource
        self.evaluated = dict.fromkeys(resource.tasks, 0)
        self.latest, self.round = 0, []

    def ask(self, reading):
        """What is to be evaluated at a reading of the clock, which never goes back; None where no task is due."""
        self.latest = max(self.latest, reading)
        if not self.round:
            self.round = sorted(filter(self.is_due, self.resource.tasks), key=lambda it: (it.priority, it.place))
        return self.evaluate(self.round.pop(0)) if self.round else None

    def is_due(self, task):
        return self.evaluated[task] // task.interval < self.latest // task.interval

    def evaluate(self, task):
        before = self.evaluated[task]
        self.evaluated[task] = min(self.latest, before + MOST_U32)
        passed = self.evaluated[task] // task.interval - before // task.interval
        return Asked(task, self.evaluated[task] - before, max(0, passed - 1))


class FieldNode:
    """A node with what its field is, and a cycle, if it makes its evaluations by itself."""

    def __init__(self, node, has_field, cycles):
        self.node, self.has_field, self.field = node, has_field, {}
        self.cycle = Cycle(node.resource) if cycles else None

    def answer(self, origin, line):
        """The lines that are written of a line by one of its inputs; none of a blank line or a comment."""
        try:
            return self.step_of(origin, line)()
        except Refused as kind:
            return [f"REFUSED {kind}"]

    def step_of(self, origin, line):
        """What a line asks for: a function that does it, and gives what is written of it."""
        refuse_too_long(line)
        if is_silent(line):
            return list
        keyword, *behind = parts_of(line)
        keyword = words.fold(keyword)
        if self.has_field and keyword not in MAY_SAY[origin]:
            raise Refused("NotFromThere")
        if self.cycle and keyword == "EVAL":
            raise Refused("Cycling")
        if self.has_field and keyword == "INPUT":
            return partial(self.tell, told_by(behind))
        return self.node.step_of(line)

    def tell(self, told):
        """An address that isn't told stays as it was, and where it was."""
        self.field.update(told)
        return ["INPUT taken"]

    def end_field(self):
        self.field.clear()
        return ["FIELD ended"]

    def evaluate(self, reading):
        """What is written where the cycle is asked at a reading; None where no task is due."""
        asked = self.cycle.ask(reading)
        if not asked:
            return None
        skips = [f"OVERRUN {asked.task.full_name} {asked.skipped}"] if asked.skipped else []
        return skips + self.node.answer(" ".join(["EVAL", asked.task.full_name, str(asked.elapsed), *self.told()]))

    def told(self):
        """What the field is, as words."""
        return [f"{space}{number}={words.shown(value)}" for (space, number), value in self.field.items()]


def told_by(listed):
    try:
        return Inputs(listed).values
    except AddressTwice:
        raise Refused("Twice") from None
    except BadInput:
        raise Refused("Syntax") from None
