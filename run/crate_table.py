#!/usr/bin/env python3
"""run/crate_table.py [--write]: the table of the program's crates in docs/ARCHITECTURE.md, made of crates.txt and what each crate says of itself.

With --write it is put into the page; without, a last line tells whether the table there is this one.
"""
import os
import re
import sys

sys.dont_write_bytecode = True
from crates import PROGRAM, ROOT, crates_of, listed_crates

PAGE = f"{ROOT}/docs/ARCHITECTURE.md"
BEGIN, END = "<!-- The table of crates: run/crate_table.py --write makes it. -->\n", "<!-- The end of the table of crates. -->\n"


def sentence_of(crate):
    """The first sentence of what a crate says of itself, up to a colon if what stands before it is a sentence's worth."""
    paths = (f"{ROOT}/crates/{crate}/src/{name}" for name in ("lib.rt", "main.rt"))
    with open(next(filter(os.path.isfile, paths)), encoding="utf-8") as file:
        told = re.match(r"(?://! .*\n)*", file.read())[0]
    text = " ".join(line.removeprefix("//!").strip() for line in told.splitlines())
    sentence = re.match(r".*?(?=\.(?: |$)|$)", text)[0].removesuffix(":")
    beginning = sentence.partition(": ")[0]
    return beginning if beginning.count(" ") >= 4 else sentence


def table():
    wanted = crates_of(PROGRAM)
    rows = [f"`{crate}` | {sentence_of(crate)}" for crate in listed_crates() if crate in wanted]
    return "\n".join(["Crate | What is in it", "---|---", *rows]) + "\n"


def main(words):
    with open(PAGE, encoding="utf-8") as file:
        before, _, rest = file.read().partition(BEGIN)
    there, _, behind = rest.partition(END)
    if words == ["--write"]:
        with open(PAGE, "w", encoding="utf-8") as file:
            file.write(before + BEGIN + table() + END + behind)
        return 0
    is_there = there == table()
    print("the table is that of docs/ARCHITECTURE.md" if is_there else table() + "the table of docs/ARCHITECTURE.md is another one")
    return 0 if is_there else 1


sys.exit(main(sys.argv[1:]))
