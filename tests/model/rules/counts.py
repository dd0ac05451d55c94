"""How far the counts of a ladder's counters matter. Where no operand shows a count, one above PV of a counter up can't be told from
PV, if a number or nothing stands there, nor one below 0 of a counter down from 0. A counter that is drawn twice counts as far as it
can."""
from . import words

MOST = 32767


def count_limits(networks):
    """Of some networks the counters whose counts go no further than they matter, each with its least and its most."""
    boxes = [box for network in networks for box in network.boxes]
    drawn = [words.fold(it.name) for it in boxes]
    shown = {words.fold(it.name) for it in boxes if shows_count(it)} | {it for box in boxes for it in counts_read(box)}
    limits = {}
    for name, box in zip(drawn, boxes):
        if drawn.count(name) == 1 and name not in shown and (limit := limit_of(box)):
            limits[name] = limit
    return limits


def limit_of(box):
    """The least and the most count of a counter that matter; None where all do."""
    if box.block == "CTD":
        return 0, MOST
    preset = preset_of(box)
    return (-MOST - 1, preset) if box.block == "CTU" and preset is not None else None


def preset_of(box):
    """The number at PV of a box: 0 where nothing stands there, None where it is no number."""
    for pin in box.pins:
        if pin.is_left and words.fold(pin.name) == "PV" and pin.operand:
            return words.number_of(pin.operand.text)
    return 0


def shows_count(box):
    """Whether a box stores more of its instance than Q."""
    return any(not pin.is_left and pin.operand and words.fold(pin.name) != "Q" for pin in box.pins)


def counts_read(box):
    """The instances of which the operands of a box read more than Q."""
    for pin in box.pins:
        if pin.is_left and pin.operand and not words.is_literal(pin.operand.text):
            name, _, output = words.fold(pin.operand.text).partition(".")
            if output != "Q":
                yield name


def limit_counts(state, limits):
    """No count goes further than it matters."""
    for name, (least, most) in limits.items():
        outputs = state.blocks[name].outputs
        outputs["CV"] = max(least, min(outputs["CV"], most))
