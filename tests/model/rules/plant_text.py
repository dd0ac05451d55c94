"""The text of a plant, read word by word from top to bottom; the first fault that is met refuses it."""
from . import words
from .plant import Field, Given, Plant, Program, ProgramType, Resource, Task
from .plant_words import SECTIONS, PlantWords
from .refusal import Refusal

MOST_TYPES, MOST_NAMES, MOST_RESOURCES, MOST_TASKS, MOST_PROGRAMS, MOST_CONNECTIONS = 64, 1000, 16, 16, 64, 4096
MOST_PRIORITY = MOST_ADDRESS = 65535
FIELD_KINDS = {"%IX": "BOOL", "%IW": "INT"}
ROLES = {"VAR_INPUT": "Input", "VAR_OUTPUT": "Output", "VAR": "Local", "VAR RETAIN": "Retained"}


def read_plant(text):
    return PlantText(text).plant()


def find(things, name):
    """The thing of a name; None where there is none."""
    return next((it for it in things if words.fold(it.name) == words.fold(name)), None)


class PlantText:
    """One method for each rule of the grammar."""

    def __init__(self, text):
        self.words = PlantWords(text)
        self.read = Plant()
        self.sources = []

    def plant(self):
        while self.words.sees("PROGRAM"):
            self.program()
        self.configuration()
        for source in self.sources:
            self.resolve(source)
        self.expect("")
        return self.read

    # Words.

    def expect(self, *wanted):
        """Takes a word that is one of these, keywords in either case."""
        word, line = self.words.take()
        if words.fold(word) not in wanted:
            raise Refusal("Syntax", line)
        return words.fold(word)

    def name(self):
        word, line = self.words.take()
        if not words.is_plain_name(word):
            raise Refusal("Syntax", line)
        return word, line

    def new_name(self, things, most, count=None):
        """A name that none of the things has, of which there are at most so many."""
        name, line = self.name()
        if find(things, name):
            raise Refusal("NameTwice", line)
        if (len(things) if count is None else count) >= most:
            raise Refusal("TooMany", line)
        return name

    def known(self, things):
        name, line = self.name()
        found = find(things, name)
        if not found:
            raise Refusal("UnknownName", line)
        return found

    # Programs.

    def program(self):
        self.expect("PROGRAM")
        it = ProgramType(self.new_name(self.read.types, MOST_TYPES))
        self.read.types.append(it)
        while self.words.sees_section():
            self.block(it.declarations)
        lines, first_line = self.words.take_body()
        it.draw(lines or [""], first_line)

    def block(self, declarations):
        section = self.expect(*SECTIONS)
        if section == "VAR" and self.words.sees("RETAIN"):
            section += " " + self.expect("RETAIN")
        while not self.words.sees("END_VAR"):
            self.variables(declarations, section)
        self.expect("END_VAR")

    def variables(self, declarations, section):
        declared = [self.variable(declarations)]
        while self.expect(",", ":") == ",":
            declared.append(self.variable(declarations))
        kind, line = self.words.take()
        kind = words.fold(kind)
        if kind not in words.KINDS and kind not in words.BLOCK_TYPES:
            raise Refusal("Syntax", line)
        if kind in words.BLOCK_TYPES and section != "VAR":
            raise Refusal("WrongKind", line)
        for it in declared:
            it.role, it.kind = ("Instance" if kind in words.BLOCK_TYPES else ROLES[section]), kind
        self.expect(";")

    def variable(self, declarations):
        """A name is declared at once, so that the next one may not be the same; its kind comes later."""
        name = self.new_name(list(declarations), MOST_NAMES)
        declarations.add(name, "", "")
        return declarations.find(name)

    # Resources.

    def configuration(self):
        self.expect("CONFIGURATION")
        self.name()
        self.resource()
        while self.words.sees("RESOURCE"):
            self.resource()
        self.expect("END_CONFIGURATION")

    def resource(self):
        self.expect("RESOURCE")
        it = Resource(self.new_name(self.read.resources, MOST_RESOURCES), len(self.read.resources))
        self.read.resources.append(it)
        self.expect("ON")
        self.name()
        while self.words.sees("TASK", "PROGRAM"):
            if self.words.sees("TASK"):
                self.task(it)
            else:
                self.use(it)
        self.expect("END_RESOURCE")

    def task(self, resource):
        self.expect("TASK")
        name = self.new_name(resource.tasks, MOST_TASKS)
        self.expect("(")
        settings = {}
        for end in (",", ")"):
            setting = self.expect(*({"INTERVAL", "PRIORITY"} - set(settings)))
            self.expect(":=")
            settings[setting] = self.interval() if setting == "INTERVAL" else self.priority()
            self.expect(end)
        self.expect(";")
        place = len(resource.tasks)
        resource.tasks.append(Task(name, resource, place, settings["INTERVAL"], settings["PRIORITY"]))

    def interval(self):
        word, line = self.words.take()
        value = words.duration_of(word)
        if value is None or not 0 < value <= words.LARGEST_DURATION:
            raise Refusal("Syntax", line)
        return value

    def priority(self):
        word, line = self.words.take()
        value = words.number_of(word)
        if value is None or value > MOST_PRIORITY:
            raise Refusal("Syntax", line)
        return value

    def use(self, resource):
        self.expect("PROGRAM")
        line = self.words.line_at(self.words.peek()[1])
        name = self.new_name(resource.programs, MOST_PROGRAMS, len(self.read.programs()))
        self.expect("WITH")
        task = self.known(resource.tasks)
        self.expect(":")
        it = Program(name, self.known(self.read.types), task, line=line)
        resource.programs.append(it)
        task.programs.append(it)
        if self.expect("(", ";") == "(":
            if self.words.sees(")"):
                self.expect(")")
            else:
                self.bind(it)
                while self.expect(",", ")") == ",":
                    self.bind(it)
            self.expect(";")

    def bind(self, program):
        name, line = self.name()
        declared = program.type.declarations.find(name)
        if not declared or declared.role != "Input":
            raise Refusal("UnknownName", line)
        if any(it is declared for it, _ in program.binds):
            raise Refusal("InputBoundTwice", line)
        if self.read.connections() >= MOST_CONNECTIONS:
            raise Refusal("TooMany", line)
        self.expect(":=")
        program.binds.append((declared, self.source(declared.kind)))
        program.lines.append(line)

    def source(self, kind):
        word, line = self.words.take()
        space = words.fold(word[:3])
        if space in FIELD_KINDS:
            number = words.number_of(word[3:])
            if number is None or number > MOST_ADDRESS:
                raise Refusal("Syntax", line)
            if FIELD_KINDS[space] != kind:
                raise Refusal("WrongKind", line)
            return Field(space, number)
        if not words.is_plain_name(word):
            raise Refusal("Syntax", line)
        parts = [(word, line)]
        for _ in range(2):
            self.expect(".")
            parts.append(self.name())
        self.sources.append(Given(parts, kind))
        return self.sources[-1]

    def resolve(self, source):
        """Finds what a source means, part by part."""
        (first, one), (second, two), (third, three) = source.words
        resource = find(self.read.resources, first)
        if not resource:
            raise Refusal("UnknownName", one)
        source.program = find(resource.programs, second)
        if not source.program:
            raise Refusal("UnknownName", two)
        output = source.program.type.declarations.find(third)
        if not output or output.role != "Output":
            raise Refusal("UnknownName", three)
        if output.kind != source.kind:
            raise Refusal("WrongKind", three)
        source.output = words.fold(output.name)
