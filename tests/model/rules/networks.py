"""The networks of a drawing, in order: classes of places that are joined by any chain."""
from dataclasses import dataclass

from . import words
from .drawing import Symbol, left_of
from .refusal import refuse_first

MOST_ROWS_OF_NETWORK = 200


@dataclass(eq=False)
class Network:
    """Its places, and its symbols and boxes; `heads` are the places to which state passes from the left rail."""

    places: set
    symbols: list
    boxes: list
    heads: list


def networks_of(drawing, first_line=1):
    """The networks by the topmost row at which each meets the left rail; refused by their first fault."""
    found = [network_of(drawing, places) for places in classes(drawing)]
    refuse_first("Unattached", [min(it.places) for it in found if not it.heads], first_line, "Graph")
    refuse_first("TooTall", [min(it.places) for it in found if is_too_tall(it)], first_line, "Graph")
    refuse_first("InstanceTwice", list(later_boxes(drawing)), first_line, "Graph")
    return sorted(found, key=lambda it: min(it.heads))


def classes(drawing):
    """The classes of drawn places outside the rails."""
    left = {place for place, mark in drawing.marks.items() if mark.name != "RAIL"}
    while left:
        reached, ahead = set(), [left.pop()]
        while ahead:
            place = ahead.pop()
            reached.add(place)
            ahead += [it for it in joined(drawing, place) if it in left]
            left.difference_update(ahead)
        yield reached


def joined(drawing, place):
    """The places to which one is joined at once."""
    if drawing.is_fed(place):
        yield left_of(place)
    yield from drawing.onward[place]
    whole = drawing.symbol_at.get(place) or drawing.box_at.get(place)
    if whole:
        yield from whole.places


def network_of(drawing, places):
    symbols = [it for it in drawing.symbols if it.place in places]
    boxes = [it for it in drawing.boxes if it.place in places]
    heads = [it for it in places if left_of(it) in drawing.left_rail and drawing.is_fed(it)]
    return Network(places, symbols, boxes, heads)


def is_too_tall(network):
    rows = [row for row, _ in network.places]
    return max(rows) - min(rows) + 1 > MOST_ROWS_OF_NETWORK


def later_boxes(drawing):
    """The boxes whose name an earlier one has."""
    seen = set()
    for thing in drawing.things:
        if not isinstance(thing, Symbol):
            if words.fold(thing.name) in seen:
                yield thing.place
            seen.add(words.fold(thing.name))
