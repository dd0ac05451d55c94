"""Drawings with a second one whose rungs stand behind them, by chance: it reads names of the first, and stores at its own."""
from rules.lines import lines_of
from rules.refusal import Refusal
from rules.second_drawing import with_second

from .claims import SOME_BLOCKS, SmallDrawer, claim_rung, groups, held_of, held_words, names_of, read_ladder
from .drawings import Drawer, Names, cased, digits, drawing, operands_of, with_comment
from .scan_restarts import restart_words
from .slips import SLIPS
from .test_words import value_words, with_items
from .traces import trace_words

OWN_BITS, OWN_BOXES = ["SEEN", "V", "V_2", "w7", "BAD"], ["S0", "S1", "q"]
OWN_OPERANDS = {"INT": ["K", "K_1"], "TIME": ["DT1"]}
# Words that no drawing with a second one is asked by, or that name no second one.
REFUSED = [["--program", "P"], ["--with", "second.ladder"], ["--with"], ["--with", "--chart"], ["--with="], ["--with", "none.ladder"], ["--with", "-"]]


class Second:
    """A second drawing for names of a first one; now and then with a slip."""

    def __init__(self, chance, ladder):
        self.chance, self.ladder = chance, ladder
        declared = list(ladder.declarations) if ladder else []
        self.firsts = {kind: [it.name for it in declared if it.role != "Instance" and it.kind == kind] for kind in ("BOOL", "INT", "TIME")}
        self.first_boxes = [(it.name, it.kind) for it in declared if it.role == "Instance"]
        self.own = {"BOOL": chance.sample(OWN_BITS, chance.randint(2, 4)), **OWN_OPERANDS}
        self.slip = chance.choice([None] * 12 + [self.stored_at_first, self.other_kind, self.box_of_first, self.name_as_box, self.box_as_name])

    def names(self, blocks):
        """What it may read of both, and store at of its own; half of its own names are inputs, if there are others."""
        chance = self.chance
        reads = {kind: [*chance.sample(self.firsts[kind], min(len(self.firsts[kind]), 4)), *self.own[kind]] for kind in self.own}
        stores = {**self.own, "BOOL": self.own["BOOL"][len(self.own["BOOL"]) // 2 :]}
        boxes = [(name, chance.choice(blocks)) for name in chance.sample(OWN_BOXES, chance.choice([0, 0, 1, 1, 2, 3]))]
        names = Names(reads, stores, boxes, list(self.first_boxes))
        if self.slip:
            self.slip(names)
        return names

    def stored_at_first(self, names):
        for kind, firsts in self.firsts.items():
            names.stores[kind] = [*names.stores[kind], *firsts[:1]]

    def other_kind(self, names):
        for kind, other in (("BOOL", "INT"), ("INT", "TIME"), ("TIME", "INT"), ("INT", "BOOL")):
            names.reads[kind] = [*names.reads[kind], *self.firsts[other][:1]]
        names.stores["BOOL"] = [*names.stores["BOOL"], *self.firsts["INT"][:1]]

    def box_of_first(self, names):
        names.boxes += [(name, self.chance.choice([block, "SR"])) for name, block in self.first_boxes[:1]]

    def name_as_box(self, names):
        names.boxes += [(name, "SR") for name in self.chance.sample(self.firsts["BOOL"], min(len(self.firsts["BOOL"]), 1))]

    def box_as_name(self, names):
        for side in (names.reads, names.stores):
            side["BOOL"] = [*side["BOOL"], *(name for name, _ in self.first_boxes[:1])]

    # Its text.

    def text(self, rows):
        """The rows below the rail of the first, now and then in another column, with comments, too many, or with a slip."""
        chance = self.chance
        rail = (self.ladder.drawing.rail - 1 if self.ladder else 0) + (1 if chance.random() < 0.02 else 0)
        blank = min((len(row) - len(row.lstrip(" ")) for row in rows if row.strip(" ")), default=0)
        rows = [" " * rail + row[blank:] if row.strip(" ") else row for row in rows]
        for _ in range(chance.choice([0] * 11 + [1, 2])):
            rows = with_comment(chance, rows)
        text = "\n".join(rows) + chance.choice(["\n", "\n", "\n", "", "\n\n"])
        if chance.random() < 0.05:
            text = text.replace("\n", "\r\n")
        if chance.random() < 0.08:
            text = chance.choices(list(SLIPS), weights=list(SLIPS.values()))[0](chance, text or " ")
        return chance.choice(["", " \n", "\n" * 1990 + text]) if chance.random() < 0.02 else text


def with_blank_rows(chance, text):
    """A first drawing, now and then with so many empty rows below it that few are left for the second, or none."""
    more = chance.choice([1990, 1960, 2000]) - len(lines_of(text)) if chance.random() < 0.03 else 0
    return text.removesuffix("\n") + "\n" + "\n" * more if more > 0 else text


def second_option(chance):
    return chance.choice([["--with", "second.ladder"]] * 3 + [["--with=second.ladder"]])


def seconds(chance):
    """A drawing with a second one behind it, and words for its scans."""
    while True:
        files, [given] = drawing(chance)
        files["it.ladder"] = with_blank_rows(chance, files["it.ladder"])
        ladder = read_ladder(files["it.ladder"])
        if ladder or chance.random() < 0.3:
            break
    second = Second(chance, ladder)
    rows = Drawer(chance, second.names(SOME_BLOCKS)).drawing(chance.randint(1, 4))
    files["second.ladder"] = second.text(rows)
    given = given + words_of_second(chance, second, files["second.ladder"]) + second_option(chance)
    if "--chart" not in given:
        given += chance.choice([[], [], ["--show"], ["--show", "--color=always"], trace_words(chance)])
    given += chance.choice(REFUSED) if chance.random() < 0.04 else []
    return files, [given + chance.choice([[], [], [], ["--strict"], ["--no-warnings"]])]


def words_of_second(chance, second, text):
    """Words that set or expect some of the names that the second has alone."""
    drawn = set(text.upper().replace("\n", " ").split())
    bits = [it for it in second.own["BOOL"] if it.upper() in drawn]
    given = [f"{cased(chance, name)}={digits(chance, chance.randint(1, 8))}" for name in chance.sample(bits, min(len(bits), 2))]
    given += [f"{cased(chance, name)}=={digits(chance, chance.randint(1, 3))}" for name in bits[:1] if chance.random() < 0.3]
    if chance.random() < 0.4:
        operands = operands_of(text, Names(second.own, second.own, []))
        given = with_items(chance, given) + value_words(chance, [(cased(chance, name), kind) for name, kind in operands])
    return given + (restart_words(chance, 8) if chance.random() < 0.2 else [])


def second_claims(chance):
    """A drawing, and claims and what is given as rungs of a second one behind it."""
    while True:
        text = groups(chance) if chance.random() < 0.8 else drawing(chance)[0]["it.ladder"]
        ladder = read_ladder(text)
        if ladder or chance.random() < 0.05:
            break
    second = Second(chance, ladder)
    drawer = SmallDrawer(chance, second.names(SOME_BLOCKS))
    rungs = [drawer.any_rung(True) for _ in range(chance.choice([0, 0, 1, 1, 2, 3]))]
    rungs += [claim_rung(drawer, name) for name in ["WRONG", "WRONG2", "SO"][: chance.randint(1, 3)]]
    second_text = second.text([row for rung in rungs for row in [*rung, "|"]])
    both = second_ladder(ladder, text, second_text)
    stored, inputs = names_of(both) if both else (["WRONG"], [])
    own = [it for it in stored if it.startswith("WRONG")] or stored
    claimed = chance.sample(own if chance.random() < 0.8 else stored, 1) + chance.sample(stored, min(len(stored), chance.choice([0, 0, 1])))
    given = ["verify", "it.ladder", *second_option(chance), "--most-states", str(chance.choice([1, 5, 40, 200, 200, 200]))]
    given += ["--dt", str(chance.choice([0, 1, 10, 10, 25, 1000]))] * (chance.random() < 0.9)
    for name in claimed:
        given += ["--never", cased(chance, name)]
    for name in [it for it in stored if it == "SO" and chance.random() < 0.5]:
        given += ["--given", cased(chance, name)]
    given += ["--restarts"] * (chance.random() < 0.3)
    given += chance.choice([*REFUSED, ["--never", "R1.I0.Q"], ["--no-restarts"]]) if chance.random() < 0.04 else []
    held = held_words(chance, both, held_of(chance, both, claimed, inputs)) if both else []
    return {"it.ladder": text, "second.ladder": second_text}, [given + held]


def second_ladder(ladder, text, second_text):
    """The ladder of both; None where one is refused."""
    try:
        return with_second(ladder, len(lines_of(text)), second_text) if ladder else None
    except Refusal:
        return None
