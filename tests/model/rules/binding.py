"""Names: what a drawing declares by its use, and whether its names can be bound."""
from dataclasses import dataclass

from . import words
from .blocks import inputs_of, outputs_of
from .drawing import Mark
from .refusal import refuse_first

FAULTS = ("UnknownName", "WrongKind", "WritesInput", "UnknownPin", "PinMissing", "LiteralOutOfRange")


@dataclass
class Declared:
    """A name as it was declared: an input, an output, a local (maybe a retained one) of a kind, or an instance of a block type."""

    name: str
    role: str
    kind: str


class Declarations:
    """Names in their order, each once, case aside."""

    def __init__(self):
        self.by_name = {}

    def __iter__(self):
        return iter(self.by_name.values())

    def has(self, name):
        return words.fold(name) in self.by_name

    def find(self, name):
        return self.by_name.get(words.fold(name))

    def add(self, name, role, kind):
        self.by_name.setdefault(words.fold(name), Declared(name, role, kind))

    def of_role(self, role):
        return [it for it in self if it.role == role]


def guessed(drawing):
    """The names of a drawing by their first use."""
    uses = [(symbol.place, symbol.name, "Local", "BOOL") for symbol in drawing.symbols]
    for box in drawing.boxes:
        uses.append((box.place, box.name, "Instance", box.block))
        for pin in box.pins:
            if pin.operand:
                kind = kind_of_pin(box, pin) or "BOOL"
                uses.append(((pin.operand.row, pin.operand.column), pin.operand.text, "Local", kind))
    declarations = Declarations()
    for _, name, role, kind in sorted(uses):
        if words.is_plain_name(name):
            declarations.add(name, role, kind)
    return declarations


def kind_of_pin(box, pin):
    """The kind of a pin; None where the type has no such pin on that side."""
    pins = inputs_of(box.block) if pin.is_left else outputs_of(box.block)
    return pins.get(words.fold(pin.name))


def refuse_names(drawing, declarations, first_line=1):
    """Refuses by the first fault of the names of a drawing."""
    found = [fault for symbol in drawing.symbols for fault in symbol_faults(symbol, declarations)]
    found += [fault for box in drawing.boxes for fault in box_faults(drawing, box, declarations)]
    for kind in FAULTS:
        refuse_first(kind, [place for it, place in found if it == kind], first_line, "Bind")


def symbol_faults(symbol, declarations):
    faults = stored_faults if symbol.is_coil else read_faults
    return ((kind, symbol.place) for kind in faults(symbol.name, "BOOL", declarations))


def read_faults(name, kind, declarations):
    """What is wrong with a name where a value of a kind is read; of no kind where the pin isn't known."""
    first, _, second = name.partition(".")
    declared = declarations.find(first)
    if not declared:
        yield "UnknownName"
    elif not second:
        if kind and (declared.role == "Instance" or declared.kind != kind):
            yield "WrongKind"
    elif declared.role != "Instance":
        yield "WrongKind"
    elif words.fold(second) not in outputs_of(declared.kind):
        yield "UnknownPin"
    elif kind and outputs_of(declared.kind)[words.fold(second)] != kind:
        yield "WrongKind"


def stored_faults(name, kind, declarations):
    """What is wrong with a name where a value of a kind is stored."""
    first, _, second = name.partition(".")
    declared = declarations.find(first)
    if not declared:
        yield "UnknownName"
    elif second or declared.role == "Instance" or (kind and declared.kind != kind):
        yield "WrongKind"
    elif declared.role == "Input":
        yield "WritesInput"


def box_faults(drawing, box, declarations):
    declared = declarations.find(box.name)
    if not declared:
        yield "UnknownName", box.place
    elif (declared.role, declared.kind) != ("Instance", box.block):
        yield "WrongKind", box.place
    seen = set()
    for pin in sorted(box.pins, key=lambda it: it.place):
        kind = kind_of_pin(box, pin)
        if kind is None or words.fold(pin.name) in seen:
            yield "UnknownPin", pin.place
        seen.add(words.fold(pin.name))
        beside = pin.row, pin.column + (-1 if pin.is_left else 1)
        if kind in ("INT", "TIME") and drawing.mark(beside) in (Mark.WIRE, Mark.JOIN, Mark.SYMBOL):
            yield "WrongKind", pin.place
        if pin.operand:
            place = pin.operand.row, pin.operand.column
            yield from ((fault, place) for fault in operand_faults(pin, kind, declarations))
    for is_left in (True, False):
        if not any(pin.is_left == is_left and kind_of_pin(box, pin) == "BOOL" for pin in box.pins):
            yield "PinMissing", box.place


def operand_faults(pin, kind, declarations):
    text = pin.operand.text
    if not words.is_literal(text):
        return (read_faults if pin.is_left else stored_faults)(text, kind, declarations)
    return literal_faults(pin, kind, text)


def literal_faults(pin, kind, text):
    number, duration = words.number_of(text), words.duration_of(text)
    own_kind = "TIME" if number is None else "INT"
    if not pin.is_left or (kind and kind != own_kind):
        yield "WrongKind"
    if (number or 0) > words.LARGEST_NUMBER or (duration or 0) > words.LARGEST_DURATION:
        yield "LiteralOutOfRange"
