"""Runs of a plant one after the other over one folder of state, which is the folder of the plant."""
from rules.plant_text import read_plant

from .plants import PlantMaker, inputs
from .slips import cut, with_line_twice, with_other_sign, with_sign_left_out, with_sign_put_in, without_line

SLIPS = (cut, with_line_twice, with_other_sign, with_sign_left_out, with_sign_put_in, without_line)
VALUES = {"BOOL": "01", "INT": ["0", "1", "2", "5", "-3", "32767", "-32768"], "TIME": [f"T#{it}ms" for it in (0, 5, 10, 30, 4294967295)]}
# Values of another form, or beyond the limits.
ODD_VALUES = {
    "BOOL": ["TRUE", "2", "01"],
    "INT": ["32768", "-0", "+1", "1_0", ""],
    "TIME": ["T#1s", "t#5ms", "T#-1ms", "T#4294967296ms", "10"],
}
NUMBERS = ["0\n", "1\n", "7\n", "4294967290\n"]
ODD_NUMBERS = ["", "1", "01\n", "1\r\n", "4294967295\n", "4294967296\n"]


def restarts(chance):
    """A plant with words for three runs in turns; before the last one it is changed now and then."""
    text = PlantMaker(chance).text()
    files, names = {"it.plant": text}, ["it.plant"] * 3
    if chance.random() < 0.5:
        files.update(kept_files(chance, read_plant(text)))
    if chance.random() < 0.15:
        files["changed.plant"] = changed(chance, text)
        names[2] = "changed.plant"
    return files, [run_words(chance, name) for name in names]


def run_words(chance, name):
    return ["run", name, "--until", chance.choice(["0", "20", "40", "50"]), "--paced", "--state", ".", *inputs(chance)]


def changed(chance, text):
    """A plant that has more or fewer retained variables, or declares one in another case."""
    more = [("VAR RETAIN", "VAR RETAIN N9 : BOOL;"), ("VAR L0", "VAR RETAIN L0")]
    return text.replace(*chance.choice([*more, ("VAR RETAIN", "VAR"), ("M0 :", "m0 :"), ("M1 :", "m1 :")]), 1)


def kept_files(chance, plant):
    """Files of earlier runs; in some of these folders one of them has a slip."""
    numbers = {f"{it.name}.inc": chance.choice(NUMBERS) for it in plant.resources if chance.random() < 0.3}
    tasks = {f"{it.resource.name}.{it.place}.ret": it for it in plant.tasks() if chance.random() < 0.4}
    kept = {name: "".join(lines_of_task(chance, task)) for name, task in tasks.items()}
    slip = chance.choice(["none"] * 5 + ["number", "value", "sign"])
    if slip == "number":
        numbers[f"{chance.choice(plant.resources).name}.inc"] = chance.choice(ODD_NUMBERS)
    elif slip != "none" and kept:
        name = chance.choice(list(kept))
        kept[name] = with_odd_value(chance, tasks[name]) if slip == "value" else chance.choice(SLIPS)(chance, kept[name] or "\n")
    return {**numbers, **kept}


def lines_of_task(chance, task):
    """A line for each retained variable of a task."""
    return [f"{program.name}.{it.name}={chance.choice(VALUES[it.kind])}\n" for program, it in task.retained()]


def with_odd_value(chance, task):
    lines = lines_of_task(chance, task)
    if lines:
        at = chance.randrange(len(lines))
        lines[at] = f"{lines[at].partition('=')[0]}={chance.choice(ODD_VALUES[task.retained()[at][1].kind])}\n"
    return "".join(lines)
