"""Retained variables of a program, and networks that show what they are when a scan begins."""

# What shows a number or a time: a counter that is loaded with it, a timer that runs so long; the rows of their pins.
BOXES = {"INT": ("CTD", "LD    Q", "PV   CV"), "TIME": ("TON", "IN    Q", "PT   ET")}


def outputs_of(retained):
    """The outputs that show the variables."""
    return {f"W_{name}": kind for name, kind in retained.items()}


def boxes_of(retained):
    """The boxes that these need."""
    return {f"V_{name}": BOXES[kind][0] for name, kind in retained.items() if kind in BOXES}


def rows_of(retained):
    for name, kind in retained.items():
        yield from box_rows(name, *BOXES[kind]) if kind in BOXES else [f"|  {name:6} W_{name}", "+--| |---( )"]


def box_rows(name, block, first, second):
    edge = "|         +-------+"
    return [f"|          V_{name}", edge, f"|         |  {block}  |", f"+---------|{first}|", f"|{name:>8}-|{second}|-W_{name}", edge]


def blocks_of(chance, retained):
    """Two blocks that declare them."""
    listed, at = list(retained.items()), chance.randint(0, len(retained))
    return [("VAR RETAIN", dict(listed[:at])), ("VAR RETAIN", dict(listed[at:]))]
