"""The faults of a drawing, kind after kind; of one kind the first place is told."""
from . import words
from .drawing import Drawing, Mark, Symbol, left_of, right_of
from .refusal import refuse_first

MOST_ROWS, MOST_COLUMNS = 2000, 240


def read_drawing(lines, first_line=1):
    """The drawing of a text's lines; refused by its first fault."""
    rows = [line.rstrip(" ") for line in lines]
    refuse_rows(rows, first_line)
    drawing = Drawing(rows)
    refuse_drawing(drawing, first_line)
    return drawing


def refuse(kind, places, first_line):
    refuse_first(kind, list(places), first_line, "Drawing")


def refuse_rows(rows, first_line):
    refuse("NotAscii", not_ascii(rows), first_line)
    refuse("TooLarge", too_large(rows), first_line)
    refuse("NoLeftRail", no_left_rail(rows), first_line)


def refuse_drawing(drawing, first_line):
    refuse("BadBox", bad_boxes(drawing), first_line)
    drawing.mark_places()
    for kind, places in (
        ("BadMark", bad_marks),
        ("Crossing", crossings),
        ("NoSource", without_source),
        ("NameMissing", nameless),
        ("StrayName", stray_words),
    ):
        refuse(kind, places(drawing), first_line)


def not_ascii(rows):
    for row, line in enumerate(rows, 1):
        yield from ((row, column) for column, sign in enumerate(line, 1) if not 32 <= ord(sign) <= 126)


def too_large(rows):
    if len(rows) > MOST_ROWS:
        yield MOST_ROWS + 1, 1
    yield from ((row, MOST_COLUMNS + 1) for row, line in enumerate(rows, 1) if len(line) > MOST_COLUMNS)


def no_left_rail(rows):
    starts = [len(line) - len(line.lstrip(" ")) for line in rows if line]
    if not starts:
        yield 1, 1
        return
    rail = min(starts)
    for row, line in enumerate(rows, 1):
        if line[rail : rail + 1].strip(" |+"):
            yield row, rail + 1


def bad_boxes(drawing):
    """Boxes that aren't whole, and those that share a place with an earlier one."""
    taken = set()
    for box in drawing.boxes:
        if not box.is_whole or not taken.isdisjoint(box.places):
            yield box.place
        else:
            taken.update(box.places)


def bad_marks(drawing):
    yield from (place for place, mark in drawing.marks.items() if mark is Mark.UNKNOWN)
    for box in drawing.boxes:
        for row in range(box.top, box.bottom + 1):
            for is_left, column in ((True, box.left - 1), (False, box.right + 1)):
                beside = row, column
                if box.has_pin(row, is_left):
                    continue
                if beside in drawing.symbol_at:
                    yield drawing.symbol_at[beside].place
                elif drawing.mark(beside) in (Mark.WIRE, Mark.JOIN):
                    yield beside


def crossings(drawing):
    lines = (Mark.WIRE, Mark.JOIN, Mark.SYMBOL, Mark.BOX)
    for place, mark in drawing.marks.items():
        if mark is Mark.UPRIGHT:
            row, column = place
            is_inside = drawing.is_of_upright((row - 1, column)) and drawing.is_of_upright((row + 1, column))
            beside = drawing.mark(left_of(place)), drawing.mark(right_of(place))
            if not is_inside or any(it in lines for it in beside):
                yield place


def without_source(drawing):
    for place, mark in drawing.marks.items():
        row, column = place
        if mark is Mark.WIRE and not drawing.is_fed(place):
            yield place
        elif mark is Mark.SYMBOL and drawing.symbol_at[place].place == place and not drawing.is_fed(place):
            yield place
        elif drawing.is_of_upright(place) and not drawing.is_of_upright((row - 1, column)):
            if not any(drawing.mark(it) is Mark.JOIN and drawing.is_fed(it) for it in upright_below(drawing, place)):
                yield place


def upright_below(drawing, place):
    """The places of an upright from its topmost one."""
    row, column = place
    while drawing.is_of_upright((row, column)):
        yield row, column
        row += 1


def nameless(drawing):
    return (thing.place for thing in drawing.things if not drawing.words_above[thing])


def stray_words(drawing):
    for word in drawing.words:
        takers = drawing.takers[word]
        if takers:
            is_good = len(takers) == 1 and (words.is_name(word.text) or words.is_literal(word.text))
        else:
            things = [it for it, above in drawing.words_above.items() if word in above]
            is_good = len(things) == 1 and drawing.words_above[things[0]][0] is word and is_name_of(things[0], word.text)
        if not is_good:
            yield word.row, word.column


def is_name_of(thing, text):
    """A symbol's name may have a dot, a box's has none."""
    return words.is_name(text) if isinstance(thing, Symbol) else words.is_plain_name(text)
