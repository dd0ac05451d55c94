"""Program types of plants, tried and verified by their declarations."""
from rules import words
from rules.needed import names_of
from rules.plant_text import read_plant
from rules.refusal import Refusal
from rules.scan import stored_names

from .beside import with_beside
from .claims import MOST_FREE, held_words
from .drawings import COMMENTS, cased, digits, further_words
from .plants import PlantMaker
from .scan_restarts import restart_words
from .traces import trace_words
from .verify_plants import Program


# A resource that runs nothing, behind a program type.
NOTHING_RUN = """CONFIGURATION C
  RESOURCE R1 ON NODE
  END_RESOURCE
END_CONFIGURATION
"""


def commented(chance, text):
    """The text of a plant with a comment now and then as a row of its own, in a body or elsewhere."""
    rows = text.split("\n")
    for _ in range(chance.choice([0, 0, 0, 1, 2])):
        rows.insert(chance.randint(0, len(rows) - 1), chance.choice(COMMENTS))
    return "\n".join(rows)


def forgetful(chance):
    """A plant of one program type that remembers the same twice, once retained, with claims that both are alike; and other rungs."""
    retained, lost = chance.choice([(["M"], ["K"]), (["M"], ["K"]), (["M", "N"], ["K", "L"])])
    pairs = list(zip(retained, lost))
    drawn = [latch(chance, chance.choice(pairs), "SR"[k % 2]) for k in range(chance.randint(1, 4))]
    drawn += [latch(chance, [chance.choice([*retained, *lost])], chance.choice("SRP ")) for _ in range(chance.choice([0, 0, 0, 1]))]
    chance.shuffle(drawn)
    drawn += [claim(chance, chance.choice(pairs), f"NEVER{k}") for k in range(chance.randint(1, 2))]
    outputs = sorted({it[-1][1] for it in drawn if it[-1][1].startswith("NEVER")})
    program = Program("P", ["A", "B"], outputs, drawn, retained, lost)
    lines = list(program.lines())
    lines = with_beside(chance, lines, {"BOOL": program.names()}) if chance.random() < 0.4 else lines
    return "\n".join(lines) + "\n" + NOTHING_RUN


def latch(chance, names, sign):
    """A rung that sets these names, resets them or stores at them."""
    contacts = [contact(chance, chance.choice("AAABBBMK")) for _ in range(chance.choice([1, 1, 1, 2]))]
    return [*contacts, *((f"({sign})", it) for it in names)]


def claim(chance, pair, name):
    """A rung of a claim: what is retained is on, and the other is not; now and then some other two contacts."""
    signs = chance.choice([["| |", "|/|"]] * 4 + [["|/|", "| |"], ["|P|", "|/|"], ["|N|", "| |"]])
    return [*zip(signs, pair), ("( )", name)]


def contact(chance, name):
    return chance.choice(["| |"] * 5 + ["|/|", "|P|", "|N|"]), name


def some_plant(chance, is_forgetful=False):
    """A plant that is read, with its text as it is given."""
    while True:
        text = forgetful(chance) if is_forgetful else PlantMaker(chance).text()
        try:
            plant = read_plant(text)
        except Refusal:
            continue
        text = commented(chance, text)
        if chance.random() < 0.05:
            text = text.replace("\n", "\r\n")
        return plant, text


def name_of(chance, found):
    """The name of a type in some case, and now and then one that no type has."""
    return chance.choice(["Z", f"{found.name}_", "E.F", ""]) if chance.random() < 0.04 else cased(chance, found.name)


def programs(chance):
    """A plant, with words for the scans of one of its program types."""
    plant, text = some_plant(chance)
    found = chance.choice(plant.types)
    variables = [it for it in found.declarations if it.role != "Instance"]
    bits = [it.name for it in variables if it.kind == "BOOL"]
    operands = [(it.name, it.kind) for it in variables if it.kind != "BOOL"]
    given = ["eval", "it.plant", "--program", name_of(chance, found)]
    given += ["--dt", str(chance.choice([0, 5, 10, 25, 1000]))] * (chance.random() < 0.8)
    scans = chance.randint(1, 8)
    for name in chance.sample(bits, min(len(bits), chance.randint(1, 4))):
        given.append(f"{cased(chance, name)}={digits(chance, chance.randint(1, scans))}")
    for name in chance.sample(bits, min(len(bits), chance.choice([0, 0, 1, 2]))):
        given.append(f"{cased(chance, name)}=={digits(chance, chance.randint(1, min(scans, 4)))}")
    given = further_words(chance, given, bits, operands)
    given += chance.choice([[], [], ["--chart"], ["--show"], ["--show", "--color=always"], trace_words(chance)]) + restart_words(chance, scans)
    return {"it.plant": text}, [given + chance.choice([[], [], [], ["--strict"], ["--no-warnings"]])]


def program_claims(chance):
    """A plant, with words that ask what of one of its program types is never on."""
    is_forgetful = chance.random() < 0.4
    while True:
        plant, text = some_plant(chance, is_forgetful)
        found = chance.choice(plant.types)
        stored = stored_names(found.ladder.drawing)
        bits = [it.name for it in found.declarations if it.role != "Instance" and it.kind == "BOOL"]
        claimed = [it for it in bits if words.fold(it) in stored]
        claimed = [it for it in claimed if it.startswith("NEVER")] or claimed
        if claimed:
            break
    given = ["verify", "it.plant", "--program", name_of(chance, found), "--most-states", str(chance.choice([5, 200, 200, 200] if is_forgetful else [0, 1, 5, 40, 200, 200]))]
    given += ["--dt", str(chance.choice([0, 10, 10, 25, 1000]))] * (chance.random() < 0.9)
    for name in chance.sample(claimed, min(len(claimed), chance.randint(1, 2))):
        given += ["--never", cased(chance, name)]
    if chance.random() < 0.2:
        given += ["--given", cased(chance, chance.choice(claimed))]
    if chance.random() < 0.05:
        given += chance.choice([["--no-restarts"], ["--most-waiting", "3"], ["--never", "R1.I0.Q"], ["--given", "R1.I0.Q"]])
    given += ["--restarts"] * (chance.random() < (0.8 if is_forgetful else 0.4))
    given += chance.choice([[], [], [], ["--strict"], ["--no-warnings"]])
    read, inputs = names_of(found.ladder.networks), [it for it in bits if words.fold(it) not in stored]
    own, others = [it for it in inputs if words.fold(it) in read], [it for it in inputs if words.fold(it) not in read]
    held = chance.sample(own, max(0, len(own) - chance.randint(0, MOST_FREE))) + [it for it in others if chance.random() < 0.2]
    return {"it.plant": text}, [given + held_words(chance, found.ladder, held)]
