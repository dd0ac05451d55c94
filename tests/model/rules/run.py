"""The run of events: what is evaluated, what has reached a resource, what is the latest of it."""
from dataclasses import dataclass

from . import words
from .plant import Field
from .plant_text import find
from .scan import State
from .inputs import BadInput, bit_of, word_of
from .refusal import Refusal
from .schedule import MOST_U32, Deliver, Evaluate, Expect, Hear, NoExpectation, Restart


class Refused(Exception):
    """An event that isn't lawful, with its cause."""


@dataclass(eq=False)
class Evaluation:
    """A message: an evaluation of a task, named by incarnation and number, with what it took and gave.

    It is addressed to one incarnation of each resource: to the one of which its maker had heard.
    """

    message: int
    task: object
    name: tuple
    heard: list
    takes: list
    image: dict
    state: dict

    def line(self):
        """The line that is written of it."""
        taken = [f"{task.full_name}={'-' if it is None else pair(it.name)}" for task, it in self.takes]
        given = [f"{program.name}.{it.name}={words.shown(value)}" for (program, it), value in zip(self.task.outputs(), self.image.values())]
        listed = " ".join(taken) or "-", " ".join(given) or "-"
        return f"EVAL {self.message} {self.task.full_name} {pair(self.name)} TAKES {listed[0]} GIVES {listed[1]}"


def pair(name):
    return f"{name[0]}.{name[1]}"


class Node:
    """A resource while events happen: its incarnation, the messages that were delivered to it or made there, and of which
    incarnation of each resource it has heard since its last restart. In `first` is the first incarnation of each resource."""

    def __init__(self, resource, first):
        self.resource, self.first = resource, first
        self.incarnation = first[resource.place]
        self.delivered = set()
        self.begin()

    def begin(self):
        """All is forgotten but the incarnation."""
        self.own = {}
        self.heard = list(self.first)
        self.heard[self.resource.place] = self.incarnation

    def has_reached(self, message):
        return message.message in self.delivered and message.heard[self.resource.place] == self.incarnation


class Run:
    """All resources of a plant, the list of evaluations, and that of each task.

    Incarnations begin at 1, and retained variables at their initial values, unless others are given.
    """

    def __init__(self, plant, most_numbers=MOST_U32, first=None, opening=None):
        self.plant, self.most_numbers, self.opening = plant, most_numbers, opening or {}
        first = first or [1] * len(plant.resources)
        self.nodes = [Node(resource, first) for resource in plant.resources]
        self.log = []
        self.lists = {task: [] for task in plant.tasks()}

    def happen(self, event):
        """The line of an event; or it is refused, and nothing changes."""
        resource = find(self.plant.resources, event.resource)
        if not resource:
            raise Refused("NoSuchResource")
        node = self.nodes[resource.place]
        if isinstance(event, Evaluate):
            return self.evaluate(node, event)
        if isinstance(event, Deliver):
            return self.deliver(node, event.message)
        if isinstance(event, Hear):
            return self.hear(node, event)
        assert isinstance(event, Restart)
        return self.restart(node)

    # Evaluations.

    def evaluate(self, node, event):
        task = find(node.resource.tasks, event.task)
        if not task:
            raise Refused("NoSuchTask")
        return self.make(node, task, event.elapsed, event.inputs).line()

    def make(self, node, task, elapsed, inputs):
        before = node.own.get(task)
        number = before.name[1] + 1 if before else 1
        if number > self.most_numbers:
            raise Refused("NumbersSpent")
        takes = [(producer, self.latest(node, producer)) for producer in task.producers()]
        state = before.state if before else self.warm_state(task)
        fill(task, state, dict(takes), inputs)
        for program in task.programs:
            program.type.ladder.scan(state[program], elapsed)
        image = {(program, words.fold(it.name)): state[program].get(it.name) for program, it in task.outputs()}
        made = Evaluation(len(self.log) + 1, task, (node.incarnation, number), list(node.heard), takes, image, state)
        self.log.append(made)
        self.lists[task].append(made)
        node.own[task] = made
        node.delivered.add(made.message)
        return made

    def warm_state(self, task):
        """The initial state, with the retained variables as they are kept."""
        state = {it: State(it.type.declarations) for it in task.programs}
        for (program, it), value in zip(task.retained(), self.kept(task)):
            state[program].set(it.name, value)
        return state

    def kept(self, task):
        """The retained variables as the task's last evaluation left them, in whatever incarnation; without one the opening ones."""
        if self.lists[task]:
            state = self.lists[task][-1].state
            return [state[program].get(it.name) for program, it in task.retained()]
        return self.opening.get(task) or [words.first_value(it.kind) for _, it in task.retained()]

    def latest(self, node, producer):
        """The last in a producer's list of evaluations among those that have reached a node; None where none has."""
        return next((it for it in reversed(self.lists[producer]) if node.has_reached(it)), None)

    # Deliveries, restarts and hearings.

    def deliver(self, node, message):
        if not 1 <= message <= len(self.log):
            raise Refused("NoSuchMessage")
        made = self.log[message - 1]
        before = self.latest(node, made.task)
        node.delivered.add(message)
        if made.task.resource is node.resource or not takes_from(node.resource, made.task):
            answer = "unused"
        elif made.heard[node.resource.place] != node.incarnation:
            answer = "stray"
        else:
            answer = "old" if self.latest(node, made.task) is before else "taken"
        return f"DELIVER {message} {node.resource.name} {answer}"

    def restart(self, node):
        if node.incarnation == MOST_U32:
            raise Refused("IncarnationsSpent")
        node.incarnation += 1
        node.begin()
        return f"RESTART {node.resource.name} {node.incarnation}"

    def hear(self, node, event):
        of = find(self.plant.resources, event.of)
        if not of:
            raise Refused("NoSuchResource")
        if not node.first[of.place] <= event.incarnation <= self.nodes[of.place].incarnation:
            raise Refused("NeverHeld")
        newer = event.incarnation > node.heard[of.place]
        if newer:
            node.heard[of.place] = event.incarnation
        return f"HEAR {node.resource.name} {of.name} {event.incarnation} {'new' if newer else 'old'}"


def takes_from(resource, producer):
    return any(producer in task.producers() for task in resource.tasks)


def fill(task, state, takes, inputs):
    """Gives each bound input its value: from its address, or from what was taken of its producer."""
    for program in task.programs:
        for declared, source in program.binds:
            state[program].set(declared.name, value_of(source, takes, inputs, declared.kind))


def value_of(source, takes, inputs, kind):
    if isinstance(source, Field):
        return inputs.get(source.space, source.number)
    taken = takes[source.program.task]
    return taken.image[source.program, source.output] if taken else words.first_value(kind)


def lines_of_steps(run, steps):
    """The line of each event, refused ones counted, and the lines of what is expected: each with the event, if it is one's."""
    events = 0
    for number, step in steps:
        try:
            if isinstance(step, Expect):
                yield from ((None, line) for line in [answer_to(run, word) for word in step.listed])
            elif step:
                events += 1
                yield step, line_of_event(run, events, step)
            else:
                raise NoExpectation
        except NoExpectation:
            raise Refusal("Syntax", number) from None


def line_of_event(run, number, event):
    try:
        return run.happen(event)
    except Refused as cause:
        return f"REFUSED {number} {cause}"


def answer_to(run, word):
    """Whether an output is what a word R.P.V=VALUE expects: by the last evaluation in its resource's present incarnation."""
    name, _, text = word.partition("=")
    for task in run.plant.tasks():
        for program, it in task.outputs():
            named = f"{task.resource.name}.{program.name}.{it.name}"
            if words.fold(name) == words.fold(named):
                made = run.nodes[task.resource.place].own.get(task)
                found = made.image[program, words.fold(it.name)] if made else words.first_value(it.kind)
                value = value_expected(it.kind, text)
                verdict = "met" if value == found else f"unmet {words.shown(found)}"
                return f"EXPECT {named}={words.shown(value)} {verdict}"
    raise NoExpectation


def value_expected(kind, text):
    try:
        if kind == "BOOL":
            return bit_of(text)
        if kind == "INT":
            return word_of(text)
    except BadInput:
        raise NoExpectation from None
    milliseconds = words.duration_of(text)
    if milliseconds is None or milliseconds > MOST_U32:
        raise NoExpectation
    return words.Duration(milliseconds)


def do_in_turns(run, due, inputs):
    """The evaluations of a plan in its order, each delivered to every other resource right behind it."""
    for _, task in due:
        made = run.make(run.nodes[task.resource.place], task, task.interval, inputs)
        for node in run.nodes:
            run.deliver(node, made.message)
