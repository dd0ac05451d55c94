"""Well-drawn drawings of all elements, by chance."""
import re
from dataclasses import dataclass, field

from rules.blocks import inputs_of, outputs_of
from rules.words import BLOCK_TYPES

from .pieces import Branch, Piece, Side, beside, box, fork, in_a_row, symbol, wire
from .scan_restarts import restart_words
from .test_words import is_of_values, refused_word, value_words, with_items
from .traces import trace_words

TIMERS, COUNTERS = ("TP", "TON", "TOF"), ("CTU", "CTD", "CTUD")
CONTACTS = ["| |"] * 5 + ["|/|"] * 3 + ["|P|", "|N|", "|p|", "|n|"]
COMMENTS = ["(* pump 1 *)"] * 3 + ["(**)", "(* Größe ½ *)", "   (* A | B ( ) *)  ", "(* C *) A", "(* A *) (* B *)", "(*)", "(* a", "\t(* b *)", "|(* c *)", "// d"]
SYMBOLS = r"\|[ /PN]\||\([ /SRPN]\)"
COILS = ["( )"] * 4 + ["(/)", "(S)", "(R)", "(P)", "(N)", "(s)", "(r)"]


@dataclass
class Names:
    """The names that a drawing may use: to read and to store by kind, and the boxes that aren't drawn yet."""

    reads: dict
    stores: dict
    boxes: list
    drawn: list = field(default_factory=list)
    is_bench: bool = False


def free_names(chance):
    """Names of a drawing that stands alone; some are never stored, so that words set them."""
    bits = [f"{it}{chance.choice(['', '1', '_2'])}" for it in "ABCDEFGH"[: chance.randint(3, 8)]]
    reads = {"BOOL": bits, "INT": ["N", "M_1", "COUNT"], "TIME": ["Z", "TM"]}
    boxes = [(f"{chance.choice('TKX')}{k}", chance.choice(BLOCK_TYPES)) for k in range(chance.randint(0, 5))]
    return Names(reads, {**reads, "BOOL": bits[len(bits) // 2 :]}, boxes)


def bench_names(chance):
    """Names of a drawing of boxes whose inputs are set by words."""
    boxes = [(f"T{k}", chance.choice(types)) for k, types in enumerate((BLOCK_TYPES, TIMERS, TIMERS, COUNTERS))]
    return Names({"BOOL": ["A", "B", "C"], "INT": ["N"], "TIME": ["Z"]}, {"BOOL": ["Y", "W"], "INT": ["N"], "TIME": ["Z"]}, boxes, is_bench=True)


def cased(chance, name):
    """A name, now and then with its letters in another case."""
    return name if chance.random() < 0.93 else chance.choice([name.lower(), name.upper(), name.title()])


class Drawer:
    def __init__(self, chance, names):
        self.chance, self.names = chance, names

    def drawing(self, rungs, first=()):
        """The rows of so many rungs between the rails, below rows that come first."""
        chance = self.chance
        is_long_rail = chance.random() < 0.8
        rows = list(first)
        for _ in range(rungs):
            rows += self.any_rung(is_long_rail)
            rows += ["|" if is_long_rail else ""] * chance.choice([0, 0, 0, 1])
        if chance.random() < 0.25:
            rows = with_right_rail(rows)
        indent = " " * chance.choice([0, 0, 0, 0, 1, 3])
        return [(indent + row if row else row) + " " * chance.choice([0] * 9 + [2]) for row in rows]

    def any_rung(self, is_long_rail):
        choice = self.chance.random()
        if self.names.boxes and (choice < 0.25 or self.names.is_bench):
            return self.rung(*self.box_alone(), is_long_rail)
        if choice > 0.92:
            return self.rung_around(is_long_rail)
        return self.rung(*self.start(), is_long_rail)

    def rung(self, piece, entries, is_long_rail):
        while piece.is_open and piece.width < 90 and self.chance.random() < 0.6:
            piece = beside(piece, self.element(1))
        if piece.is_open:
            piece = beside(piece, self.end())
        rail = {row: self.chance.choice("+++|") for row in entries_of(piece, entries)}
        return [(rail.get(k) or ("|" if is_long_rail else " ")) + row for k, row in enumerate(piece.rows)]

    def rung_around(self, is_long_rail):
        """A network that meets the rail below another one, and reaches above it farther right."""
        small = beside(self.contact(), self.coil()).rows
        small = ["|" + small[0], "+" + small[1]]
        count = self.chance.randint(2, 3)
        tower, _ = fork([Branch(self.series(0), True) for _ in range(count)], count - 1)
        rows = self.rung(*alone(beside(wire(len(small[0])), tower)), is_long_rail)
        below = max(k for k, row in enumerate(rows) if row[1] == "-")
        for k, row in enumerate(small, below - len(small)):
            rows[k] = row + rows[k][len(row) :]
        return rows

    def box_alone(self):
        """A box right behind the rail or a contact, and a coil behind it."""
        piece = self.box()
        return alone(beside(self.contact(), piece) if self.chance.random() < 0.9 else piece)

    def start(self):
        """What begins at the rail: one element, or branches that begin there."""
        if self.chance.random() < 0.75:
            piece = self.element(2)
            return piece, [piece.entry]
        branches = [Branch(self.series(1), True) for _ in range(self.chance.randint(2, 3))]
        if self.chance.random() < 0.4:
            branches.insert(1, Branch(beside(self.series(0), Piece([" ", " "], 1, 1, False)), False))
        return fork(branches, 0, from_rail=True)

    def end(self):
        choice = self.chance.random()
        if choice < 0.8:
            return in_a_row([self.coil() for _ in range(self.chance.choice([1, 1, 1, 2]))])
        if choice < 0.9:
            return wire(self.chance.randint(1, 4))
        branches = [Branch(self.coil(), False) for _ in range(self.chance.randint(2, 3))]
        return fork(branches, self.chance.randrange(len(branches)))[0]

    def series(self, depth):
        piece = self.element(depth)
        while piece.is_open and piece.width < 50 and self.chance.random() < 0.4:
            piece = beside(piece, self.element(depth))
        return piece

    def element(self, depth):
        choice = self.chance.random()
        if self.names.boxes and choice < 0.3:
            return self.box()
        if depth and choice < 0.5:
            return self.branches(depth - 1)
        if choice < 0.57:
            return self.coil()
        if choice < 0.62:
            return wire(self.chance.randint(1, 5))
        return self.contact()

    def branches(self, depth):
        count = self.chance.choice([2, 2, 2, 3])
        entry = self.chance.choice([0, 0, self.chance.randrange(count)])
        pieces = [self.series(depth) for _ in range(count)]
        branches = [Branch(it, k == entry or self.chance.random() < 0.85) for k, it in enumerate(pieces)]
        return fork(branches, entry)[0]

    # Symbols.

    def contact(self):
        return self.symbol(self.chance.choice(CONTACTS), self.read("BOOL"))

    def coil(self):
        return self.symbol(self.chance.choice(COILS), self.store("BOOL"))

    def symbol(self, text, name):
        return symbol(text, name, self.chance.choice([0, 0, 1, 2, self.chance.randint(1 - len(name), 2)]))

    def read(self, kind):
        """A name to read: a variable, or an output of a box that is drawn already."""
        outputs = [f"{name}.{pin}" for name, block in self.names.drawn for pin, it in outputs_of(block).items() if it == kind]
        if outputs and self.chance.random() < 0.3 or not self.names.reads[kind]:
            return cased(self.chance, self.chance.choice(outputs)) if outputs else ""
        return cased(self.chance, self.chance.choice(self.names.reads[kind]))

    def store(self, kind):
        names = self.names.stores[kind]
        return cased(self.chance, self.chance.choice(names)) if names else ""

    # Boxes.

    def box(self):
        name, block = self.names.boxes.pop(self.chance.randrange(len(self.names.boxes)))
        sides = self.sides(block)
        self.names.drawn.append((name, block))
        shift = self.chance.choice([0, 1, 2, 3])
        return box(cased(self.chance, block), cased(self.chance, name), shift, sides)

    def sides(self, block):
        """The rows of a box: its pins in some order, some of them not drawn."""
        chance = self.chance
        left, right = self.drawn_pins(inputs_of(block)), self.drawn_pins(outputs_of(block))
        count = max(len(left), len(right)) + chance.choice([0, 0, 0, 1])
        left, right = spread(chance, left, count), spread(chance, right, count)
        entries = [k for k, pin in enumerate(left) if pin and inputs_of(block)[pin] == "BOOL"]
        entry = chance.choice(entries)
        exits = [k for k, pin in enumerate(right) if pin and outputs_of(block)[pin] == "BOOL"]
        if chance.random() < 0.9:
            chosen = chance.choice(exits)
            right[entry], right[chosen] = right[chosen], right[entry]
        return [self.side(block, left[k], right[k], k == entry) for k in range(count)]

    def drawn_pins(self, pins):
        """Some pins, one of kind BOOL among them, in some order."""
        names = list(pins)
        self.chance.shuffle(names)
        kept = [it for it in names if self.chance.random() < 0.85]
        bits = [it for it in names if pins[it] == "BOOL"]
        if not set(kept) & set(bits):
            kept.append(bits[0])
        return kept

    def side(self, block, left, right, is_entry):
        side = Side(cased(self.chance, left), cased(self.chance, right), is_entry=is_entry)
        kind = inputs_of(block).get(left)
        if not is_entry and kind:
            side.is_fed = kind == "BOOL" and self.chance.random() < 0.35
            side.left = "" if side.is_fed else self.input(kind)
        kind = outputs_of(block).get(right)
        if kind:
            side.is_exit = is_entry and kind == "BOOL"
            side.right = "" if side.is_exit else self.result(kind)
        return side

    def input(self, kind):
        choice = self.chance.random()
        operand = self.read(kind)
        if choice < 0.15:
            return ""
        if kind != "BOOL" and (choice < 0.65 or not operand):
            operand = self.literal(kind)
        return operand and operand + "-" * self.chance.randint(0, 3)

    def literal(self, kind):
        if kind == "INT":
            return str(self.chance.choice([0, 1, 1, 2, 2, 3, 5, "0_4", 32767]))
        return self.chance.choice(["T#0ms", "T#5ms", "T#10ms", "T#10ms", "t#20MS", "TIME#30ms", "T#1s_500ms", "T#1d", "T#0m25ms"])

    def result(self, kind):
        """What is drawn behind a right pin: an operand, nothing, or a loose line where the kind is BOOL."""
        choice, name = self.chance.random(), self.store(kind)
        if choice < 0.7 and name:
            return "-" * self.chance.randint(0, 3) + name
        return "--" if kind == "BOOL" and choice < 0.85 else ""


def alone(piece):
    return piece, [piece.entry]


def spread(chance, pins, count):
    """The pins in their order over so many rows, empty ones between."""
    rows = sorted(chance.sample(range(count), len(pins)))
    placed = dict(zip(rows, pins))
    return [placed.get(row, "") for row in range(count)]


def entries_of(piece, entries):
    """The rows at which a rung meets the rail; the piece may have moved down since its entries were noted."""
    return [row + piece.entry - entries[0] for row in entries]


def with_right_rail(rows):
    width = max(map(len, rows))
    return [row.ljust(width) + "|" for row in rows]


def digits(chance, count):
    """So many digits 0 and 1; in some rows they seldom change."""
    change, last, row = chance.choice([0.5, 0.25]), chance.choice("01"), ""
    for _ in range(count):
        last = last if chance.random() > change else "10"[int(last)]
        row += last
    return row


def with_comment(chance, rows):
    """The rows with a comment above them, below them or between two of them."""
    at = chance.choice([0, len(rows), chance.randint(0, len(rows))])
    return rows[:at] + [chance.choice(COMMENTS)] + rows[at:]


def drawing(chance, names=None):
    """A drawing of such names, with words for its scans."""
    if names is None:
        names = bench_names(chance) if chance.random() < 0.35 else free_names(chance)
    rows = Drawer(chance, names).drawing(len(names.boxes) if names.is_bench else chance.randint(1, 6))
    for _ in range(chance.choice([0] * 8 + [1, 2])):
        rows = with_comment(chance, rows)
    text = "\n".join(rows) + chance.choice(["\n", "\n", "\n", ""])
    if chance.random() < 0.05:
        text = text.replace("\n", "\r\n")
    drawn = set(text.upper().replace("\n", " ").split())
    bits = [it for it in names.reads["BOOL"] if it.upper() in drawn]
    scans = chance.randint(1, 12)
    words = ["eval", "it.ladder"] + ["--dt", str(chance.choice([0, 1, 5, 5, 10, 10, 25, 1000, 4294967295]))] * (chance.random() < 0.8)
    for name in chance.sample(bits, min(len(bits), chance.randint(2, 6))):
        words.append(f"{cased(chance, name)}={digits(chance, chance.randint(1, scans))}")
    for name in chance.sample(bits, min(len(bits), chance.choice([0, 0, 1, 2]))):
        words.append(f"{cased(chance, name)}=={digits(chance, chance.randint(1, min(scans, 4)))}")
    words += ["--chart"] * (chance.random() < 0.3) + restart_words(chance, scans)
    return {"it.ladder": text}, [further_words(chance, words, bits, operands_of(text, names))]


def further_words(chance, words, bits, operands):
    """The words, most often with repeats and with values of operands, and now and then with one that is refused."""
    if chance.random() < 0.65:
        words = with_items(chance, words) + value_words(chance, [(cased(chance, name), kind) for name, kind in operands])
    if chance.random() < 0.05 and (bits or operands):
        name, kind = chance.choice([*((it, "BOOL") for it in bits), *operands])
        words = [it for it in words if not is_of_values(it)] + [refused_word(chance, cased(chance, name), kind)]
    return words


def operands_of(text, names):
    """The INT and TIME names that stand at the pins of a drawing."""
    drawn = re.findall(r"[\w.]+", re.sub(SYMBOLS, " ", text.upper()))
    return [(it, kind) for kind in ("INT", "TIME") for it in names.reads[kind] if it in drawn]


def traced(chance):
    """A drawing with the files of its trace."""
    files, [words] = drawing(chance)
    return files, [words + trace_words(chance)]


def shown(chance):
    """A drawing that is shown after each scan."""
    files, [words] = drawing(chance)
    words = [it for it in words if it != "--chart"] + ["--show"]
    return files, [words + chance.choice([[], [], [], ["--color", "always"], ["--color=never"]])]
