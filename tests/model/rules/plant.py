"""What a plant is: program types, resources with their tasks, and what feeds what."""
from dataclasses import dataclass, field

from .binding import Declarations, refuse_names
from .drawing_faults import read_drawing
from .networks import networks_of
from .scan import Ladder


@dataclass(eq=False)
class ProgramType:
    name: str
    declarations: Declarations = field(default_factory=Declarations)
    ladder: Ladder | None = None

    def draw(self, lines, first_line):
        """Reads, builds and binds the body."""
        self.first_line, self.lines = first_line, lines
        drawing = read_drawing(lines, first_line)
        networks = networks_of(drawing, first_line)
        refuse_names(drawing, self.declarations, first_line)
        self.ladder = Ladder(drawing, networks, self.declarations)


@dataclass(eq=False)
class Field:
    """A bound input's source in the field: a bit or a word."""

    space: str
    number: int


@dataclass(eq=False)
class Given:
    """A bound input's source in the plant: an output of a program; the task that runs it is found at the end."""

    words: list
    kind: str
    program: "Program | None" = None
    output: str = ""


@dataclass(eq=False)
class Program:
    """An instance of a program type, with its bound inputs in their order, and the line of each."""

    name: str
    type: ProgramType
    task: "Task"
    binds: list = field(default_factory=list)
    line: int = 0
    lines: list = field(default_factory=list)


@dataclass(eq=False)
class Task:
    name: str
    resource: "Resource"
    place: int
    interval: int
    priority: int
    programs: list = field(default_factory=list)

    @property
    def full_name(self):
        return f"{self.resource.name}.{self.name}"

    def producers(self):
        """The tasks from which this one takes, in order of first mention."""
        sources = [source for program in self.programs for _, source in program.binds if isinstance(source, Given)]
        return list(dict.fromkeys(source.program.task for source in sources))

    def outputs(self):
        """The program and the name of each output, in order of declaration."""
        return self.variables("Output")

    def retained(self):
        """The program and the name of each variable that outlives a restart, in order of declaration."""
        return self.variables("Retained")

    def variables(self, role):
        return [(program, it) for program in self.programs for it in program.type.declarations.of_role(role)]


@dataclass(eq=False)
class Resource:
    name: str
    place: int
    tasks: list = field(default_factory=list)
    programs: list = field(default_factory=list)


@dataclass(eq=False)
class Plant:
    """Its parts, and the text that they were read from."""

    types: list = field(default_factory=list)
    resources: list = field(default_factory=list)
    text: str = ""

    def tasks(self):
        return [task for resource in self.resources for task in resource.tasks]

    def programs(self):
        return [program for resource in self.resources for program in resource.programs]

    def connections(self):
        return sum(len(program.binds) for program in self.programs())
