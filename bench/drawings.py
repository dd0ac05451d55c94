"""Drawings to be timed."""

COLUMNS = 240
CELL = 6
CELLS = 39
NAMES = 1000
BLOCKS = 250


def rung(joins):
    """The line of a rung: contacts one after the other, and a coil at its end."""
    line = list(("+" + "-| |--" * CELLS).ljust(COLUMNS - 3, "-") + "( )")
    for cell in joins:
        line[1 + cell * CELL] = "+"
    return "".join(line)


def names(number, uprights):
    """The line above a rung: the name of each contact and of the coil, and the uprights to the rung before."""
    line = list("|".ljust(COLUMNS))
    for cell in range(CELLS):
        name = f"X{(number * CELLS + cell) % NAMES:03}"
        at = 2 + cell * CELL
        line[at : at + len(name)] = name
    name = f"Y{number % NAMES:03}"
    line[COLUMNS - len(name) :] = name
    for cell in uprights:
        line[1 + cell * CELL] = "|"
    return "".join(line)


def rungs(lines):
    """So many lines: rungs in pairs, of which two of three contacts have an upright to the other rung before them."""
    joins = [cell for cell in range(CELLS) if cell % 3 < 2]
    made = []
    for number in range(lines // 2):
        made.append(names(number, joins if number % 2 else []))
        made.append(rung(joins))
    return "\n".join(made) + "\n"


def rung_inputs():
    """The names of the contacts of the rungs."""
    return [f"X{number:03}" for number in range(NAMES)]


def timers():
    """On-delay timers, each in a network of its own, that run for as long as GO is on."""
    made = []
    for number in range(BLOCKS):
        made += [
            f"|             T{number:03}",
            "|         +-------+",
            f"|  GO     |  TON  |   Y{number:03}",
            "+--| |----|IN    Q|---( )",
            f"| T#24d---|PT   ET|--E{number:03}",
            "|         +-------+",
        ]
    return "\n".join(made) + "\n"


def counters():
    """Counters, each in a network of its own, and before them a variable that changes with each scan, which they count."""
    made = ["|  X        X", "+--|/|-----( )"]
    for number in range(BLOCKS):
        made += [
            f"|             C{number:03}",
            "|         +-------+",
            f"|  X      |  CTU  |   Y{number:03}",
            "+--| |----|CU    Q|---( )",
            f"| 32767---|PV   CV|--N{number:03}",
            "|         +-------+",
        ]
    return "\n".join(made) + "\n"


def latches(rows, columns):
    """One network of latches: so many in each of its rows, one behind the other, and a coil at the end of the row.

    Its rows are joined behind GO by one upright. There are at most 40 rows, and 25 latches in each.
    """
    made = []
    for row in range(rows):
        first, last = row == 0, row == rows - 1
        upright = "|" if not first else " "
        boxes = [f"S{row * columns + column:03}" for column in range(columns)]
        made += [
            f"|      {upright}" + "".join(f"  {name}   " for name in boxes),
            f"|      {upright}" + " +-----+ " * columns,
            ("|  GO   " if first else "|      |") + " | SR  | " * columns + f"Y{row:02}",
            ("+--| |-+" if first else "|      +") + "-|S1 Q1|-" * columns + "( )",
            ("|       " if last else "|      |") + " +-----+ " * columns,
        ]
    return "\n".join(made) + "\n"


def chain(contacts):
    """A rung of contacts one after the other, and a coil."""
    above = "|" + "".join(f"  X{number:02}" for number in range(contacts)) + "   Y"
    return above + "\n+" + "--| |" * contacts + "--( )\n"


def chain_inputs(contacts):
    """The names of its contacts."""
    return [f"X{number:02}" for number in range(contacts)]


def path_down(rows):
    """A network of so many rows, whose single path goes down by one row in each column: a contact first, a coil last."""
    made = ["|  A", "+--| |+"]
    for row in range(1, rows):
        made.append("|".ljust(5 + row) + "++")
    made[-2] += "   Y"
    made[-1] += "--( )"
    return "\n".join(made) + "\n"


def path_up(rows):
    """The same from the lowest row upwards."""
    made = ["|".ljust(5 + row) + "++" for row in range(rows - 1, 0, -1)]
    made[0] += "--( )"
    made[-1] = "|  A " + made[-1][5:]
    above = "|".ljust(5 + rows + 3) + "Y"
    return "\n".join([above] + made + ["+--| |+"]) + "\n"


def interlock():
    """Two drives of six inputs each, of which one waits for the other to be off, and the claim that both never run."""
    made = []
    for drive, other, first in (("LIFT", "LOWER", 0), ("LOWER", "LIFT", 6)):
        names = [f"A{first + number:02}" for number in range(6)]
        made += [
            "|  " + "".join(name.ljust(7) for name in [*names, other, drive]),
            "+--| |--+-| |--" + "--| |--" * 4 + "--|/|----( )",
            f"|  {drive.ljust(5)}|",
            "+--| |--+",
        ]
    return "\n".join([*made, "|  LIFT   LOWER  CLASH", "+--| |----| |----( )"]) + "\n"


def waiting(seconds):
    """A timer of so many seconds whose elapsed time no variable shows, and a claim on its output that holds."""
    made = [
        "|             T1",
        "|         +-------+",
        "|  GO     |  TON  |   Y",
        "+--| |----|IN    Q|---( )",
        f"|T#{seconds}s".ljust(10, "-") + "|PT     |",
        "|         +-------+",
        "|  Y    Y    NEVER",
        "+--| |--|/|--( )",
    ]
    return "\n".join(made) + "\n"


def line(*symbols):
    """A rung of symbols, each a name and its sign."""
    width = max(len(name) for name, _ in symbols) + 2
    above = "".join("  " + name.ljust(width + 3) for name, _ in symbols).rstrip()
    return f"|{above}\n+" + "-".join(f"--{sign}".ljust(width + 4, "-") for _, sign in symbols).rstrip("-")


def row(*names):
    """A rung of contacts, negated behind a slash, and a coil."""
    return line(*((name.lstrip("/"), "|/|" if name.startswith("/") else "| |") for name in names[:-1]), (names[-1], "( )"))


def drives(pairs):
    """So many pairs of drives with inputs of their own, of which one waits for the other to be off: four rungs each, with a lamp, and
    the claim that both never run."""
    made = []
    for k in range(pairs):
        made += [row(f"ON{k}", f"/OFF{k}", f"/DOWN{k}", f"UP{k}"), row(f"START{k}", f"/STOP{k}", f"/UP{k}", f"DOWN{k}")]
        made += [row(f"UP{k}", f"LAMP{k}"), row(f"UP{k}", f"DOWN{k}", f"BOTH{k}")]
    return "\n".join(made) + "\n"
