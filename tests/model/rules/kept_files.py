"""A folder of state: what stays from one run to the next."""
import os
import re

from . import words
from .run import Run
from .schedule import MOST_U32

INT_SIZE = 2**15


class BadFile(Exception):
    """A file that doesn't hold what would be kept in it, or an incarnation that is the greatest."""


class KeptFiles:
    """A resource's incarnation stands in NAME.inc, and the retained variables of its task K, from 0 on, in NAME.K.ret."""

    def __init__(self, *path):
        self.folder = os.path.join(*path)

    def opened(self, plant):
        """A run over what was kept; the resources come one after the other, each with its incarnation first."""
        first, opening = [], {}
        for resource in plant.resources:
            first.append(self.raised(resource))
            opening.update({task: self.retained(task) for task in resource.tasks})
        return Run(plant, first=first, opening=opening)

    def keep(self, run):
        """What the tasks have retained; a task that wasn't evaluated, or retains nothing, keeps no file."""
        for task, made in run.lists.items():
            if made and task.retained():
                self.replace(task.resource, retained_name(task), text_of(task, run.kept(task)))

    def raised(self, resource):
        """One more than the incarnation that was kept; it is kept at once."""
        text = self.read(f"{resource.name}.inc")
        incarnation = 0 if text is None else number_in(text)
        if incarnation == MOST_U32:
            raise BadFile
        self.replace(resource, f"{resource.name}.inc", f"{incarnation + 1}\n")
        return incarnation + 1

    def retained(self, task):
        """The values that were kept of a task; none without a file."""
        text = self.read(retained_name(task))
        if text is None:
            return None
        values = [value_of(line, it.kind) for line, (_, it) in zip(text.split("\n"), task.retained())]
        if text != text_of(task, values):
            raise BadFile
        return values

    def read(self, name):
        try:
            with open(os.path.join(self.folder, name), encoding="latin-1", newline="") as file:
                return file.read()
        except FileNotFoundError:
            return None

    def replace(self, resource, name, text):
        temporary = os.path.join(self.folder, f"{resource.name}.tmp")
        with open(temporary, "w", encoding="ascii", newline="") as file:
            file.write(text)
        os.replace(temporary, os.path.join(self.folder, name))


def retained_name(task):
    return f"{task.resource.name}.{task.place}.ret"


def number_in(text):
    if not re.fullmatch("(0|[1-9][0-9]{0,9})\n", text) or int(text) > MOST_U32:
        raise BadFile
    return int(text)


def text_of(task, values):
    """A line for each retained variable."""
    listed = zip(task.retained(), values)
    return "".join(f"{program.name}.{it.name}={words.shown(value)}\n" for (program, it), value in listed)


def value_of(line, kind):
    """The value behind the name in a line."""
    shown = line.partition("=")[2]
    number = shown.removeprefix("T#").removesuffix("ms") if kind == "TIME" else shown
    if not re.fullmatch("-?[0-9]{1,10}", number):
        raise BadFile
    least, most = {"BOOL": (0, 1), "INT": (-INT_SIZE, INT_SIZE - 1), "TIME": (0, MOST_U32)}[kind]
    if not least <= int(number) <= most:
        raise BadFile
    return {"BOOL": bool, "INT": int, "TIME": words.Duration}[kind](int(number))
