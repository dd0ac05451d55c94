"""A second drawing, whose rungs stand behind those of a first one: it reads all names of that, and stores at its own alone."""
from . import words
from .binding import Declarations, guessed, refuse_names
from .drawing_faults import read_drawing
from .lines import lines_of, without_comments
from .networks import networks_of
from .refusal import Refusal, refuse_first
from .scan import Ladder


class BothDrawings:
    """Two drawings as one, the second below the first: their places are apart."""

    def __init__(self, first, second):
        self.symbols, self.boxes = first.symbols + second.symbols, first.boxes + second.boxes
        self.onward, self.fed = {**first.onward, **second.onward}, first.fed | second.fed
        self.marks = {**first.marks, **second.marks}

    def mark(self, place):
        return self.marks[place]

    def is_fed(self, place):
        return place in self.fed


def with_second(first, rows_of_first, text):
    """The ladder of a first one, whose drawing has so many rows, and of the text of a second drawing, an empty row between.

    Refused are the faults of the second, by the lines of its own text.
    """
    above = rows_of_first + 1
    drawing = second_drawing(text, above)
    networks = networks_of(drawing, 1 - above)
    refuse_other_rail(first.drawing, drawing, 1 - above)
    refuse_boxes_of_first(first.declarations, drawing, 1 - above)
    refuse_names(drawing, names_for_second(first.declarations, drawing), 1 - above)
    return Ladder(BothDrawings(first.drawing, drawing), first.networks + networks, names_of_both(first.declarations, drawing))


def second_drawing(text, above):
    """The second drawing, as if so many empty rows stood above it; of one that is refused, with its comments emptied."""
    try:
        return read_below(lines_of(text), above)
    except Refusal:
        return read_below(lines_of(without_comments(text)), above)


def read_below(lines, above):
    """A fault that stands above the text has its first line: where nothing is drawn, or the first leaves no rows."""
    try:
        return read_drawing([""] * above + lines, 1 - above)
    except Refusal as refusal:
        raise Refusal(refusal.kind, max(1, refusal.line), refusal.column, refusal.within) from None


def refuse_other_rail(first, second, first_line):
    """The left rail of the second stands in the column of that of the first."""
    places = list(second.left_rail) if second.rail != first.rail else []
    refuse_first("NoLeftRail", places, first_line, "Drawing")


def refuse_boxes_of_first(declarations, drawing, first_line):
    """No box of the second has the name of a box of the first."""
    names = {words.fold(it.name) for it in declarations.of_role("Instance")}
    refuse_first("InstanceTwice", [it.place for it in drawing.boxes if words.fold(it.name) in names], first_line, "Graph")


def names_for_second(declarations, drawing):
    """The names as the second may use them: the variables of the first are inputs to it."""
    return declared_behind([(it.name, it.role if it.role == "Instance" else "Input", it.kind) for it in declarations], drawing)


def names_of_both(declarations, drawing):
    return declared_behind([(it.name, it.role, it.kind) for it in declarations], drawing)


def declared_behind(first, drawing):
    """Names of the first, and behind them those that the second uses first."""
    both = Declarations()
    for name, role, kind in [*first, *((it.name, it.role, it.kind) for it in guessed(drawing))]:
        both.add(name, role, kind)
    return both
