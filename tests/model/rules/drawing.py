"""What stands at each place of a drawing. Rows and columns count from 1."""
import re
import string
from dataclasses import dataclass, field
from enum import Enum

from . import words

Mark = Enum("Mark", "BLANK RAIL WIRE JOIN UPRIGHT SYMBOL BOX UNKNOWN")
WORD_SIGNS = string.ascii_letters + string.digits + "_.#"
WORD = re.compile(r"[A-Za-z0-9_.#]+")
BOX_TOP = re.compile(r"(?=(\+-+\+))")


@dataclass(eq=False)
class Word:
    row: int
    column: int
    text: str

    @property
    def last(self):
        return self.column + len(self.text) - 1

    def overlaps(self, first, last):
        return self.column <= last and first <= self.last


@dataclass(eq=False)
class Symbol:
    """A contact or coil; its sign is that in its middle, in capitals."""

    row: int
    column: int
    is_coil: bool
    sign: str
    name: str = ""

    @property
    def place(self):
        return self.row, self.column

    @property
    def top_side(self):
        return self.row, self.column, self.column + 2

    @property
    def places(self):
        return [(self.row, self.column + k) for k in range(3)]


@dataclass(eq=False)
class Pin:
    row: int
    column: int
    is_left: bool
    name: str
    operand: Word | None = None

    @property
    def place(self):
        return self.row, self.column


@dataclass(eq=False)
class Box:
    top: int
    left: int
    right: int
    block: str
    bottom: int = 0
    pins: list = field(default_factory=list)
    is_whole: bool = True
    name: str = ""

    @property
    def place(self):
        return self.top, self.left

    @property
    def top_side(self):
        return self.top, self.left, self.right

    @property
    def places(self):
        return [(row, column) for row in range(self.top, self.bottom + 1) for column in range(self.left, self.right + 1)]

    def has_pin(self, row, is_left):
        return any(pin.row == row and pin.is_left == is_left for pin in self.pins)


class Drawing:
    """The steps by which each place of a text gets its meaning, in their order."""

    def __init__(self, rows):
        self.rows = rows
        self.width = max(map(len, rows))
        self.rail = min(len(row) - len(row.lstrip(" ")) + 1 for row in rows if row)
        self.boxes = list(self.find_boxes())

    def mark_places(self):
        """All behind the boxes, which are whole and apart."""
        self.marks = {place: Mark.BOX for box in self.boxes for place in box.places}
        self.box_at = {place: box for box in self.boxes for place in box.places}
        self.symbols = sorted((*self.find_contacts(), *self.find_coils()), key=lambda it: it.place)
        self.symbol_at = {place: symbol for symbol in self.symbols for place in symbol.places}
        self.marks.update((place, Mark.SYMBOL) for place in self.symbol_at)
        self.words = list(self.find_words())
        self.find_operands()
        self.mark_rails()
        self.mark_rest()
        self.fed = {place for place in self.marks if self.takes(place) and self.gives(left_of(place))}
        self.onward = {place: list(self.steps_from(place)) for place in self.marks}
        self.name_things()

    def sign(self, row, column):
        """What is drawn at a place; outside the text it is blank."""
        if 1 <= row <= len(self.rows) and 1 <= column <= len(self.rows[row - 1]):
            return self.rows[row - 1][column - 1]
        return " "

    def mark(self, place):
        return self.marks.get(place, Mark.BLANK)

    # Boxes.

    def find_boxes(self):
        for row, line in enumerate(self.rows, 1):
            for found in BOX_TOP.finditer(line, self.rail):
                left, right = found.start(1) + 1, found.end(1)
                type_row = self.inside(row + 1, left, right)
                if type_row is not None and words.fold(type_row.strip(" ")) in words.BLOCK_TYPES:
                    yield self.box(Box(row, left, right, words.fold(type_row.strip(" "))))

    def inside(self, row, left, right):
        """What stands between the sides of a box in a row; None where these aren't there."""
        if self.sign(row, left) in "|>" and self.sign(row, right) == "|":
            return "".join(self.sign(row, column) for column in range(left + 1, right))
        return None

    def box(self, box):
        """A box from its top and type down to its bottom, or to where it isn't whole."""
        box.bottom = box.top + 2
        while self.rows[box.bottom - 1 : box.bottom] and not self.is_bottom(box):
            inner = self.inside(box.bottom, box.left, box.right)
            pins = None if inner is None else pins_of(box, inner)
            if pins is None:
                box.is_whole = False
                return box
            box.pins += pins
            box.bottom += 1
        box.is_whole = self.is_bottom(box)
        return box

    def is_bottom(self, box):
        line = "".join(self.sign(box.bottom, column) for column in range(box.left, box.right + 1))
        return re.fullmatch(r"\+-+\+", line) is not None

    # Symbols.

    def find_contacts(self):
        for row, column, sign in self.threes("|", " /PN", "|"):
            if self.sign(row, column - 1) in "-+":
                yield Symbol(row, column, False, sign)

    def find_coils(self):
        for row, column, sign in self.threes("(", " /SRPN", ")"):
            yield Symbol(row, column, True, sign)

    def threes(self, first, middle, last):
        """Three places right of the rail and outside boxes with these signs, and which sign is in the middle."""
        for row, line in enumerate(self.rows, 1):
            for column in range(self.rail + 1, len(line) - 1):
                one, two, three = line[column - 1 : column + 2]
                is_apart = all((row, column + k) not in self.marks for k in range(3))
                if one == first and words.fold(two) in middle and three == last and is_apart:
                    yield row, column, words.fold(two)

    # Words and operands.

    def find_words(self):
        for row, line in enumerate(self.rows, 1):
            free = "".join(" " if (row, column) in self.marks else sign for column, sign in enumerate(line, 1))
            for found in WORD.finditer(free):
                yield Word(row, found.start() + 1, found.group())

    def find_operands(self):
        """The word at the end of a run of dashes outside a pin is its operand, and the dashes are no wire."""
        word_at = {(word.row, word.column + k): word for word in self.words for k in range(len(word.text))}
        self.blanked, self.takers = set(), {word: [] for word in self.words}
        for box in self.boxes:
            for pin in box.pins:
                step = -1 if pin.is_left else 1
                at = pin.column + step
                while self.sign(pin.row, at) == "-":
                    at += step
                pin.operand = word_at.get((pin.row, at))
                if pin.operand:
                    self.takers[pin.operand].append(pin)
                    self.blanked.update((pin.row, column) for column in range(pin.column + step, at, step))
        self.names = [word for word in self.words if not self.takers[word]]

    # Rails and the rest.

    def mark_rails(self):
        rows = range(1, len(self.rows) + 1)
        self.left_rail = {(row, self.rail) for row in rows if self.sign(row, self.rail) in "|+"}
        self.marks.update((place, Mark.RAIL) for place in self.left_rail)
        right = [(row, self.width) for row in rows if self.sign(row, self.width) != " "]
        if self.width > self.rail and all(self.sign(*it) in "|+" and it not in self.marks for it in right):
            self.marks.update((place, Mark.RAIL) for place in right)

    def mark_rest(self):
        meaning = {"-": Mark.WIRE, "+": Mark.JOIN, "|": Mark.UPRIGHT}
        for row, line in enumerate(self.rows, 1):
            for column, sign in enumerate(line, 1):
                place = row, column
                if sign != " " and sign not in WORD_SIGNS and place not in self.marks and place not in self.blanked:
                    self.marks[place] = meaning.get(sign, Mark.UNKNOWN)

    def name_things(self):
        """Each symbol and box with the words of the row above that overlap it; the first one names it."""
        self.things = sorted((*self.symbols, *self.boxes), key=lambda it: it.place)
        self.words_above = {}
        for thing in self.things:
            row, first, last = thing.top_side
            above = [word for word in self.names if word.row == row - 1 and word.overlaps(first, last)]
            self.words_above[thing] = above
            thing.name = above[0].text if above else ""

    # Links.

    def gives(self, place):
        """Whether state passes from a place to its right, as far as that place tells."""
        if place in self.box_at:
            box = self.box_at[place]
            return place[1] == box.right and box.has_pin(place[0], False)
        return place in self.left_rail or self.mark(place) in (Mark.WIRE, Mark.JOIN, Mark.SYMBOL)

    def takes(self, place):
        """Whether state passes to a place from its left, as far as that place tells."""
        if place in self.box_at:
            box = self.box_at[place]
            return place[1] == box.left and box.has_pin(place[0], True)
        return self.mark(place) in (Mark.WIRE, Mark.JOIN, Mark.SYMBOL)

    def is_fed(self, place):
        """Whether state passes to a place from the one on its left."""
        return place in self.fed

    def steps_from(self, place):
        """The places to which state passes from one: to the right, or up and down within an upright."""
        row, column = place
        if self.is_fed(right_of(place)):
            yield right_of(place)
        if self.is_of_upright(place):
            yield from (it for it in ((row - 1, column), (row + 1, column)) if self.is_of_upright(it))

    def is_of_upright(self, place):
        return self.mark(place) in (Mark.JOIN, Mark.UPRIGHT)


def left_of(place):
    return place[0], place[1] - 1


def right_of(place):
    return place[0], place[1] + 1


def pins_of(box, inner):
    """The pins of an inner row of a box; None where it holds anything but up to two identifiers."""
    names = inner.split(" ")
    names = [name for name in names if name]
    if len(names) > 2 or not all(map(words.is_identifier, names)):
        return None
    if len(names) == 1:
        before, after = len(inner) - len(inner.lstrip(" ")), len(inner) - len(inner.rstrip(" "))
        sides = [before <= after]
    else:
        sides = [True, False]
    return [Pin(box.bottom, box.left if is_left else box.right, is_left, name) for name, is_left in zip(names, sides)]
