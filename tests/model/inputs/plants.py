"""Plants by chance: programs with drawn bodies, resources with several tasks, and what feeds what."""
from dataclasses import dataclass

from rules.plan import plan_of, schedule_of
from rules.plant_text import read_plant
from rules.refusal import Refusal
from rules.words import BLOCK_TYPES

from .drawings import Drawer, Names, cased
from .retained import blocks_of, boxes_of, outputs_of, rows_of
from .traces import trace_words

KINDS = ("BOOL", "BOOL", "BOOL", "INT", "INT", "TIME")
INTERVALS = {10: "T#10ms", 15: "T#15ms", 20: "t#20MS", 25: "TIME#0s_25ms", 40: "T#40ms", 50: "T#0s50ms"}


@dataclass
class Variables:
    """The names of a program type by section, each with its kind."""

    inputs: dict
    outputs: dict
    retained: dict
    locals: dict
    boxes: dict

    def names(self):
        """What a body may read and store, what is retained more often than the rest; only what is no input is stored."""
        stores = [*self.outputs.items(), *self.locals.items(), *self.retained.items(), *self.retained.items()]
        reads = [*self.inputs.items(), *stores]
        return Names(of_kinds(reads), of_kinds(stores), list(self.boxes.items()))

    def sections(self, chance):
        """The blocks of variables, now and then in another order. What is retained is shown by outputs."""
        sections = [
            ("VAR_INPUT", self.inputs),
            ("VAR_OUTPUT", self.all_outputs()),
            ("VAR", self.locals | self.boxes | boxes_of(self.retained)),
            *blocks_of(chance, self.retained),
        ]
        if chance.random() < 0.5:
            chance.shuffle(sections)
        return sections

    def all_outputs(self):
        return self.outputs | outputs_of(self.retained)


def of_kinds(variables):
    return {kind: [it for it, own in variables if own == kind] for kind in ("BOOL", "INT", "TIME")}


class PlantMaker:
    def __init__(self, chance):
        self.chance = chance
        self.types = {f"{name}{chance.choice(['', 'P', '_1'])}": self.variables() for name in "ABCDE"[: chance.randint(1, 4)]}
        self.resources = [f"R{k}" for k in range(1, chance.randint(2, 6) + 1)]
        self.tasks, self.programs = {}, []
        for resource in self.resources:
            self.tasks[resource] = [f"T{k}" for k in range(1, chance.choice([1, 1, 2, 2, 3]) + 1)]
            for k in range(chance.randint(1, 4)):
                self.programs.append((resource, f"I{k}", chance.choice(self.tasks[resource]), chance.choice(list(self.types))))

    def variables(self):
        chance = self.chance
        return Variables(
            {f"U{k}": chance.choice(KINDS) for k in range(chance.randint(1, 5))},
            {**{f"Y{k}": chance.choice(KINDS) for k in range(chance.randint(0, 3))}, "Q": "BOOL"},
            {f"{chance.choice(['M', 'm_'])}{k}": chance.choice(KINDS) for k in range(chance.choice([0, 1, 2, 3]))},
            {f"L{k}": chance.choice(KINDS) for k in range(chance.randint(0, 2))},
            {f"X{k}": chance.choice(BLOCK_TYPES) for k in range(chance.randint(0, 3))},
        )

    def text(self):
        lines = [line for name, variables in self.types.items() for line in self.program_type(name, variables)]
        lines += ["CONFIGURATION C"]
        for resource in self.resources:
            lines += self.resource(resource)
        return "\n".join([*lines, "END_CONFIGURATION", ""])

    def program_type(self, name, variables):
        yield f"{self.keyword('PROGRAM')} {name}"
        for section, declared in variables.sections(self.chance):
            if declared or self.chance.random() < 0.1:
                listed = " ".join(f"{it} : {cased(self.chance, kind)};" for it, kind in declared.items())
                yield f"{self.keyword(section)} {listed} {self.keyword('END_VAR')}{self.comment()}"
        yield from self.drawer(variables.names()).drawing(self.chance.randint(1, 4), rows_of(variables.retained))
        yield self.keyword("END_PROGRAM")

    def resource(self, resource):
        yield f"  RESOURCE {resource} ON {self.chance.choice(['NODE', 'n_1'])}"
        for task in self.tasks[resource]:
            settings = [f"INTERVAL := {self.chance.choice(list(INTERVALS.values()))}", f"PRIORITY := {self.chance.randint(0, 2)}"]
            if self.chance.random() < 0.1:
                settings.reverse()
            yield f"    {self.keyword('TASK')} {task}({', '.join(settings)});{self.comment()}"
        for own, name, task, kind in self.programs:
            if own == resource:
                yield f"    PROGRAM {name} WITH {cased(self.chance, task)} : {cased(self.chance, kind)}{self.binds(kind)};"
        yield "  END_RESOURCE"

    def binds(self, kind):
        bound = [f"{cased(self.chance, name)} := {source}" for name, it in self.types[kind].inputs.items() if (source := self.source(it))]
        return f"({', '.join(bound)})" if bound or self.chance.random() < 0.2 else ""

    def source(self, kind):
        """An address, an output of some program, or none."""
        outputs = [name for name, it in self.outputs() if it == kind]
        choice = self.chance.random()
        if choice < 0.12:
            return None
        if kind != "TIME" and (choice < 0.3 or not outputs):
            return self.address(kind)
        return cased(self.chance, self.chance.choice(outputs)) if outputs else None

    def outputs(self):
        """The names of all outputs, each with its kind."""
        for resource, name, _, type_name in self.programs:
            for output, kind in self.types[type_name].all_outputs().items():
                yield f"{resource}.{name}.{output}", kind

    def address(self, kind):
        return f"{cased(self.chance, '%IX' if kind == 'BOOL' else '%IW')}{self.chance.randint(0, 3)}"

    def drawer(self, names):
        return Drawer(self.chance, names)

    def keyword(self, word):
        return cased(self.chance, word)

    def comment(self):
        return self.chance.choice([""] * 12 + [" (* a comment *)", " (**)", "\t"])


def inputs(chance):
    """Words ADDRESS=VALUE, each address once."""
    bits = [f"{cased(chance, '%IX')}{k}={chance.choice('001')}" for k in range(4) if chance.random() < 0.6]
    numbers = [f"{cased(chance, '%IW')}{k}={chance.choice([0, 1, 2, 5, -1, -3, 32767, -32768])}" for k in range(4) if chance.random() < 0.4]
    listed = bits + numbers
    chance.shuffle(listed)
    return listed


def plant(chance):
    """A plant, with words for a run in turns, for its plan and the schedule of that, and for what such a schedule does."""
    until = chance.choice([0, 40, 100, 100, 160, 200])
    traces = trace_words(chance) if chance.random() < 0.3 else []
    text = PlantMaker(chance).text()
    plan = ["plan", "it.plant", "--until", str(until)]
    runs = [
        ["run", "it.plant", "--until", str(until), *traces, "--paced", *inputs(chance)],
        plan,
        [*plan, "--schedule"],
        ["sim", "it.plant", "it.schedule"],
    ]
    return {"it.plant": text, "it.schedule": planned(text, until)}, runs


def planned(text, until):
    """The schedule of a plan; nothing where there is no plant."""
    try:
        read = read_plant(text)
    except Refusal:
        return ""
    return "".join(f"{line}\n" for line in schedule_of(read, plan_of(read, until)))
