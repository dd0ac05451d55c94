"""That the pages of the repository hold together, the program aside.

Each link to a file of the repository leads to one, and one to a heading to that heading. The table of crates is made of
crates.txt and the crates, the text of a page of what stands in crates/page/page, and each crate that promises something, but
those for tests alone, has its heading among what is proved, by itself or beside others.
"""
import os
import re
import subprocess
import sys

ROOT = os.path.dirname(os.path.realpath(sys.argv[1]))
sys.path.insert(0, f"{ROOT}/run")
sys.dont_write_bytecode = True
from crates import PROGRAM, crates_of, listed_crates

FOLDERS = ("", "docs", "examples", "examples/field", "examples/machines", "tests", "bench", "wrong_bodies")
# There is no call in it.
PROMISE_NOTHING = {"lists"}
LINK = re.compile(r"\]\(([^)\s]+)\)")
told = []


def read(path):
    with open(os.path.join(ROOT, path), encoding="utf-8") as file:
        return file.read()


def without_code(text):
    return re.sub(r"(?ms)^```.*?^```$|`[^`\n]*`", "", text)


def anchors_of(path):
    """The headings of a page, as links name them."""
    titles = re.findall(r"(?m)^#+ (.*)$", re.sub(r"(?ms)^```.*?^```$", "", read(path)))
    return {re.sub(r"[^\w\- ]", "", title.lower()).replace(" ", "-") for title in titles}


def try_links(path):
    for link in LINK.findall(without_code(read(path))):
        if "://" in link:
            continue
        name, _, anchor = link.partition("#")
        target = os.path.normpath(os.path.join(os.path.dirname(path), name)) if name else path
        if not os.path.exists(os.path.join(ROOT, target)):
            told.append(f"{path}: there is no {link}")
        elif anchor and anchor not in anchors_of(target):
            told.append(f"{path}: {target} has no heading {anchor}")


def main():
    for folder in FOLDERS:
        for name in sorted(os.listdir(os.path.join(ROOT, folder))):
            if name.endswith(".md"):
                try_links(os.path.join(folder, name))
    titles = re.findall(r"\w+", " ".join(re.findall(r"(?m)^### (.+)$", read("docs/PROVED.md"))))
    tests = crates_of(*(it for it in listed_crates() if it.endswith("_tests")))
    promising = listed_crates().keys() - (tests.keys() - crates_of(PROGRAM).keys()) - PROMISE_NOTHING
    for crate in sorted(promising ^ set(titles)):
        told.append(f"docs/PROVED.md: {crate} is a crate that promises something or a heading, and not both")
    for script in ("crate_table.py", "page_text.py"):
        made = subprocess.run([sys.executable, f"{ROOT}/run/{script}"], stdout=subprocess.PIPE, text=True, check=False)
        if made.returncode:
            told.append(made.stdout)
    print("\n".join(told) or "the pages hold together")


main()
