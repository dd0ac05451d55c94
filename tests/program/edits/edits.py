"""That each edit that is to be refused fits what it turns, and that no file of definitions or proofs is left out.

Each `old:` of an edit of wrong_bodies/ or of a crate's must-fail/ stands once in its file, as the pairs before it left that, and its
test is there. The edits of by_tests have their rows in the page of wrong bodies. Each file of a crate's specs/ and proofs/ is named
in the one that lists its folder, or is that of a function.
"""
import functools
import os
import re
import sys

ROOT = os.path.dirname(os.path.realpath(sys.argv[1]))
CRATES = os.path.join(ROOT, "crates")
told = []


def read(path):
    with open(path, encoding="utf-8") as file:
        return file.read()


def files_in(folder):
    """The files of a folder and of those in it, by their paths from it."""
    for place, _, names in os.walk(os.path.join(ROOT, folder)):
        yield from (os.path.relpath(os.path.join(place, name), ROOT) for name in sorted(names))


def edits():
    """Each edit, with its crate."""
    for crate in sorted(os.listdir(CRATES)):
        for folder in (f"crates/{crate}/must-fail", f"wrong_bodies/{crate}"):
            yield from ((crate, path) for path in files_in(folder))


def try_edit(crate, path):
    texts, name, old = {}, None, None
    for line in read(os.path.join(ROOT, path)).splitlines():
        word, _, rest = line.partition(":")
        if word == "file":
            name = os.path.join(CRATES, crate, rest.strip())
        elif word == "tests":
            try_test(path, *rest.split())
        elif word == "old":
            old = rest.removeprefix(" ")
        elif word == "new":
            text = texts.get(name) or read(name)
            if text.count(old) != 1 or old == rest.removeprefix(" "):
                told.append(f"{path}: {old!r} stands {text.count(old)} times, or stays")
            texts[name] = text.replace(old, rest.removeprefix(" "))
        else:
            told.append(f"{path}: {line!r} is no line of an edit")
    if not texts:
        told.append(f"{path}: it changes nothing")


def try_test(path, crate, test):
    module, _, function = test.rpartition("::")
    file = os.path.join(CRATES, crate, "src", f"{module}.rt")
    if not os.path.isfile(file) or not re.search(rf"\bfn {function}\b", read(file)):
        told.append(f"{path}: there is no test {test} of {crate}")


def try_rows():
    """The rows of the page of wrong bodies, and the edits that tests refuse."""
    rows = re.findall(r"(?m)^\| (`\w+`(?:, `\w+`)*) \|", read(os.path.join(ROOT, "wrong_bodies", "README.md")))
    rows = {name for row in rows for name in re.findall(r"\w+", row)}
    names = {os.path.basename(path).removesuffix(".edit") for _, path in edits() if "/by_tests/" in path}
    told.extend(f"wrong_bodies/README.md: {name} has a row or an edit, and not both" for name in sorted(rows ^ names))


def try_named(crate, part):
    """The files of specs/ or proofs/ of a crate: what stands in a folder is named in the file of the folder's name, or in Lib."""
    top = f"crates/{crate}/{part}"
    for path in files_in(top):
        folder, name = os.path.split(path)
        name, extension = os.path.splitext(name)
        listing = os.path.join(ROOT, f"{top}/Lib.antt" if folder == top else f"{folder}.antt")
        if extension != ".antt":
            told.append(f"{path}: it is no file of definitions or proofs")
        elif os.path.isfile(listing):
            if (folder, name) != (top, "Lib") and not re.search(rf"(?m)^(?:pub )?mod {name}\b", read(listing)):
                told.append(f"{path}: it isn't named in {os.path.relpath(listing, ROOT)}")
        elif os.path.basename(folder).removeprefix("+") not in functions_of(crate):
            told.append(f"{path}: there is no such function")


@functools.cache
def functions_of(crate):
    """The names of a crate's functions, and that by which a folder of proofs stands for a whole impl."""
    texts = (read(os.path.join(ROOT, path)) for path in files_in(f"crates/{crate}/src"))
    return {"TheImpl", *(name for text in texts for name in re.findall(r"\bfn (\w+)", text))}


def main():
    for crate, path in edits():
        try_edit(crate, path)
    try_rows()
    for crate in sorted(os.listdir(CRATES)):
        for part in ("specs", "proofs"):
            try_named(crate, part)
    print("\n".join(told) or "each edit fits, and each file is named")


main()
