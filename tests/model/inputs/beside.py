"""What stands in a program beside that of which claims ask: counters, timers, edges and outputs that read all and that nothing else reads."""
from .drawings import CONTACTS, Drawer, Names, cased
from .pieces import in_a_row, symbol

BITS, NUMBERS = ["P0", "P1"], {"INT": "G0", "TIME": "G1"}
BLOCKS = ["CTU", "CTU", "CTD", "CTUD", "TON", "TOF", "TP", "SR", "RS"]


class Beside:
    """Outputs, boxes and rungs of a program type, by what this has to read."""

    def __init__(self, chance, reads):
        self.chance = chance
        self.boxes = {f"E{k}": chance.choice(BLOCKS) for k in range(chance.choice([1, 1, 2]))}
        self.bits = BITS[: chance.choice([1, 2])]
        self.numbers = dict(chance.sample(list(NUMBERS.items()), chance.choice([0, 1, 2])))
        own = {kind: [name] for kind, name in self.numbers.items()} | {"BOOL": self.bits}
        kinds = ("BOOL", "INT", "TIME")
        stores = {kind: own.get(kind, []) for kind in kinds}
        self.names = Names({kind: [*reads.get(kind, []), *stores[kind]] for kind in kinds}, stores, list(self.boxes.items()))

    def outputs(self):
        """An output shows what the rungs come to, now and then; else it is a variable of the program's own."""
        return {name: kind for name, kind in self.variables() if self.is_shown(name)}

    def locals(self):
        return {name: kind for name, kind in self.variables() if not self.is_shown(name)} | self.boxes

    def variables(self):
        return [*((it, "BOOL") for it in self.bits), *((name, kind) for kind, name in self.numbers.items())]

    def is_shown(self, name):
        return name != BITS[1]

    def rungs(self):
        """Each box with a contact that counts, times or latches by what is read, and edges."""
        drawer, rungs = SmallBeside(self.chance, self.names), []
        while self.names.boxes:
            rungs.append(drawer.rung(*drawer.box_alone(), True))
        return rungs + [self.rung() for _ in range(self.chance.choice([0, 1, 1]))]

    def rung(self):
        contacts = [symbol(self.chance.choice(CONTACTS), cased(self.chance, self.chance.choice(self.names.reads["BOOL"])), 0) for _ in range(self.chance.choice([1, 2]))]
        coil = symbol(self.chance.choice(["( )", "(S)", "(R)", "(P)", "(N)", "(/)"]), self.chance.choice(self.bits), 0)
        above, line = in_a_row([*contacts, coil]).rows
        return ["|" + above, "+" + line]


class SmallBeside(Drawer):
    def literal(self, kind):
        return self.chance.choice(["1", "2", "3", "32767"] if kind == "INT" else ["T#10ms", "T#20ms", "T#5s", "T#1d"])


def declared(listed):
    """The variables of a section, each with its kind."""
    return " ".join(f"{name} : {kind};" for name, kind in listed.items())


def with_beside(chance, lines, reads):
    """The lines of a program type, with more declared and more rungs above its own or below."""
    more = Beside(chance, reads)
    begun = next(k for k, line in enumerate(lines) if line.upper().startswith("PROGRAM "))
    body = next(k for k, line in enumerate(lines) if line[:1] in "|+ " and line.strip())
    sections = [f"{keyword} {declared(listed)} END_VAR" for keyword, listed in (("VAR_OUTPUT", more.outputs()), ("VAR", more.locals())) if listed]
    own = lines[body:-1]
    indent = min(len(row) - len(row.lstrip(" ")) for row in own if row.strip())
    drawn = [" " * indent + row for rung in more.rungs() for row in [*rung, "|"]]
    drawn = [*own, *drawn] if chance.random() < 0.5 else [*drawn, *own]
    return [lines[begun], *sections, *lines[begun + 1 : body], *drawn, lines[-1]]
