"""Texts with a slip: a drawing, plant or schedule in which a few signs, words or lines are changed."""
import re

from .drawings import drawing, with_comment
from .plants import plant
from .schedules import schedule

SIGNS = "+-| ()/PNSR>_.#:;,=*%\t0123456789ABT\n"
NAMES = "VAR END_VAR PROGRAM TON CTU BOOL INT TIME T#5ms R1 T1 I0 U0 U1 Y0 Q L0 X0 X0.Q X0.ET PT IN 7 32768 T#30d ON RETAIN %IX0 %IW0 %IX65536".split()
WORD = re.compile(r"[A-Za-z0-9_.#%]+")


def with_sign_left_out(chance, text):
    at = chance.randrange(len(text))
    return text[:at] + text[at + 1 :]


def with_sign_put_in(chance, text):
    at = chance.randrange(len(text))
    return text[:at] + chance.choice(SIGNS) + text[at:]


def with_other_sign(chance, text):
    at = chance.randrange(len(text))
    return text[:at] + chance.choice(SIGNS) + text[at + 1 :]


def with_other_symbol(chance, text):
    """A contact or coil with another sign in its middle."""
    places = [it.start() + 1 for it in re.finditer(r"\|[ /PN]\||\([ /SRPN]\)", text)]
    at = chance.choice(places or [0])
    return text[:at] + chance.choice(" /PNSR") + text[at + 1 :]


def without_line(chance, text):
    lines = text.split("\n")
    del lines[chance.randrange(len(lines))]
    return "\n".join(lines)


def with_line_twice(chance, text):
    lines = text.split("\n")
    at = chance.randrange(len(lines))
    return "\n".join(lines[: at + 1] + lines[at:])


def cut(chance, text):
    return text[: chance.randrange(len(text))]


def with_other_word(chance, text):
    """One word in the place of another, all else where it was as far as there is room."""
    found = list(WORD.finditer(text))
    if not found:
        return text
    old, new = chance.choice(found), chance.choice([chance.choice(NAMES), chance.choice(found).group()])
    before, behind = text[: old.start()], text[old.end() :]
    more = len(new) - len(old.group())
    if more < 0:
        new = new.ljust(len(old.group()), "-" if behind.startswith("-") else " ")
    elif behind[:more].strip("- ") == "" and "\n" not in behind[:more]:
        behind = behind[more:]
    return before + new + behind


def without_word(chance, text):
    """Blanks in the place of a word, such as a name or a pin."""
    found = list(WORD.finditer(text))
    if not found:
        return text
    old = chance.choice(found)
    return text[: old.start()] + " " * len(old.group()) + text[old.end() :]


def with_retain(chance, text):
    """RETAIN behind the first word of a block of variables."""
    found = list(re.finditer(r"\bVAR(_INPUT|_OUTPUT)?\b", text, re.IGNORECASE))
    if not found:
        return text
    at = chance.choice(found).end()
    return text[:at] + chance.choice([" RETAIN", " retain", "\nRETAIN", " (**)RETAIN ", "_RETAIN"]) + text[at:]


def with_comment_row(chance, text):
    return "\n".join(with_comment(chance, text.split("\n")))


SLIPS = {
    with_sign_left_out: 2,
    with_sign_put_in: 2,
    with_other_sign: 2,
    with_other_symbol: 1,
    without_line: 1,
    with_line_twice: 1,
    cut: 1,
    with_other_word: 9,
    without_word: 4,
    with_retain: 1,
    with_comment_row: 2,
}


def counted_or_planned(chance):
    files, _ = plant(chance)
    return files, [chance.choice([["check", "it.plant"], ["plan", "it.plant", "--until", "100"]])]


TEXTS = {(drawing, "it.ladder"): 9, (plant, "it.plant"): 6, (counted_or_planned, "it.plant"): 3, (schedule, "it.schedule"): 2}


def slip(chance):
    """Files and words of a text with one slip or a few."""
    make, name = chance.choices(list(TEXTS), weights=list(TEXTS.values()))[0]
    files, runs = make(chance)
    for _ in range(chance.choice([1, 1, 1, 2, 3])):
        change = chance.choices(list(SLIPS), weights=list(SLIPS.values()))[0]
        files[name] = change(chance, files[name] or " ")
    return files, runs
