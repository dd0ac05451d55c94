"""The networks that a question about a drawing needs: those that store at a variable, or have the box of an instance, that a claim,
what is given, or a needed network reads or changes."""
from . import words


def first_part(name):
    """The variable, or the instance before a dot, that a name reads."""
    return words.fold(name).partition(".")[0]


def read_by(network):
    """What a network reads: at its contacts, and at the left pins of its boxes."""
    operands = {pin.operand.text for box in network.boxes for pin in box.pins if pin.is_left and pin.operand}
    names = {it.name for it in network.symbols if not it.is_coil} | {it for it in operands if not words.is_literal(it)}
    return set(map(first_part, names))


def changed_by(network):
    """What a network changes: the variables at which its coils and right pins store, and the instances of its boxes."""
    names = {it.name for it in network.symbols if it.is_coil} | {it.name for it in network.boxes}
    names |= {pin.operand.text for box in network.boxes for pin in box.pins if not pin.is_left and pin.operand}
    return set(map(words.fold, names))


def names_of(networks):
    """What some networks read or change."""
    return set().union(*(read_by(it) | changed_by(it) for it in networks))


def needed_networks(networks, names):
    """Of some networks those that are needed for these names, in order."""
    needed, names = set(), set(names)
    while more := {it for it in networks if it not in needed and changed_by(it) & names}:
        needed |= more
        names |= names_of(more)
    return [it for it in networks if it in needed]
