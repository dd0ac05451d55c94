"""Compares `plc page` with the page that run/page_text.py makes of a text, to the byte; tells what differs.

Texts of all signs of HTML, control bytes, line ends, nothing at all, 64 MB; from a file and from standard input. A text that isn't
UTF-8, a missing file and words that don't fit are refused.
"""
import os
import subprocess
import sys

PLC = sys.argv[1]
ROOT = os.path.dirname(os.path.realpath(PLC))
sys.path[:0] = [f"{ROOT}/run", f"{ROOT}/tests/pages", f"{ROOT}/tests/model"]
sys.dont_write_bytecode = True
from checks import hostile_texts
from page_text import page_of

told = []


def ran(words, given=b""):
    return subprocess.run([PLC, "page", *words], input=given, stdout=subprocess.PIPE, stderr=subprocess.PIPE, timeout=120, check=False)


def compare(name, text):
    with open("it.txt", "wb") as file:
        file.write(text.encode())
    wanted = (0, page_of(text).encode(), b"")
    for words, given in (["it.txt"], b""), (["-"], text.encode()):
        found = ran(words, given)
        if (found.returncode, found.stdout, found.stderr) != wanted:
            told.append(f"{name}, {words[0]}: another page, status {found.returncode}, {found.stderr[:80]!r}")


def refuses(name, words, status, given=b""):
    found = ran(words, given)
    if found.returncode != status or found.stdout or not found.stderr:
        told.append(f"{name}: status {found.returncode}, {len(found.stdout)} bytes, {found.stderr[:80]!r}")


for name, text in hostile_texts():
    compare(name, text)
compare("each byte below 128", "".join(map(chr, range(128))))
compare("64 MB", "EVAL 1 R1.A 1.1 TAKES - GIVES P.X=1 & <\r\n" * 1_600_000)
with open("bytes.txt", "wb") as file:
    file.write(b"A=1\n\xff\n")
refuses("no UTF-8", ["bytes.txt"], 3)
refuses("no UTF-8 on standard input", ["-"], 3, b"A=1\n\xc3(\n")
refuses("a missing file", ["missing.txt"], 3)
refuses("a folder", ["."], 3)
refuses("no word", [], 2)
refuses("two words", ["it.txt", "it.txt"], 2)
refuses("an unknown option", ["--svg", "it.txt"], 2)
print("\n".join(told) or "the pages are as they are to be")
