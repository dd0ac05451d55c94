#!/usr/bin/env python3
"""run/page_text.py [--write]: whether crates/page/src/page_text.rt has the page of crates/page/page; --write makes it so.

The page is page.html, with the other files of that folder where it names them, and the sum of each for the page's own
Content-Security-Policy: what stands before the text is its head, what stands behind it its foot. The kit has no include_str!,
so both are constants of Rattle. tests/pages makes its pages by `page_of`.
"""
import base64
import hashlib
import os
import re
import sys

HERE = os.path.dirname(os.path.realpath(__file__))
FOLDER = os.path.join(HERE, "..", "crates", "page", "page")
SOURCE = os.path.join(HERE, "..", "crates", "page", "src", "page_text.rt")
ESCAPES = {"&": "&amp;", "<": "&lt;", ">": "&gt;", "\r": "&#13;", "\0": "<wbr>"}
# These would end an element of the page early.
ENDS = re.compile(r"</(script|style)|<!--|\r|\0", re.IGNORECASE)


def read(name, folder=FOLDER):
    with open(os.path.join(folder, name), encoding="utf-8", newline="") as file:
        text = file.read()
    if name != "page.html" and ENDS.search(text):
        sys.exit(f"{name}: {ENDS.search(text)[0]!r} may not stand there")
    return text


def head_and_foot(folder=FOLDER, read=read):
    """What stands before the text and behind it."""

    def part(found):
        word, _, name = found[1].rpartition(" ")
        text = read(name, folder)
        return f"'sha256-{base64.b64encode(hashlib.sha256(text.encode()).digest()).decode()}'" if word else text

    # What is put in isn't looked at again.
    return tuple(re.sub(r"\{\{([\w. ]+)\}\}", part, it) for it in read("page.html", folder).split("{{text}}"))


def escaped(text):
    return "".join(ESCAPES.get(sign, sign) for sign in text)


def page_of(text, folder=FOLDER, read=read):
    """The page of a text, as `plc page` writes it."""
    head, foot = head_and_foot(folder, read)
    return head + escaped(text) + foot


def constant(name, told, text):
    """A text as a constant; it holds nothing that would end it early."""
    hashes = "#" * (1 + max((len(it) for it in re.findall(r'"(#*)', text)), default=0))
    return f'/// {told}\npub const {name}: &str = r{hashes}"{text}"{hashes};\n'


def source():
    head, foot = head_and_foot()
    # A browser drops one line feed behind <pre>, and reads up to the tag that ends it.
    if not head.endswith('<pre id="text">\n') or not foot.startswith("</pre>"):
        sys.exit("page.html: the text doesn't stand in <pre> behind a line feed")
    parts = [
        "//! The page around a text, made of crates/page/page by run/page_text.py.\n",
        constant("HEAD", "What stands before the text: what the page looks like.", head),
        constant("FOOT", "What stands behind the text: what draws it.", foot),
    ]
    return "\n".join(parts)


def main(words):
    made = source()
    if words == ["--write"]:
        with open(SOURCE, "w", encoding="utf-8", newline="") as file:
            file.write(made)
        return 0
    if words:
        sys.exit("run/page_text.py [--write]")
    with open(SOURCE, encoding="utf-8", newline="") as file:
        is_same = file.read() == made
    print("the page's text is that of crates/page/page" if is_same else "crates/page/src/page_text.rt isn't of crates/page/page: run/page_text.py --write")
    return 0 if is_same else 1


if __name__ == "__main__":
    sys.exit(main(sys.argv[1:]))
