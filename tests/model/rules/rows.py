"""The files of a journal that goes on in further ones, and which go on from which."""
import os

from .node import Journal

CONTINUES = "CONTINUES "


def digest_of(text):
    mixed = 0
    for byte in text.encode():
        mixed = (mixed + byte) * 0x9E3779B97F4A7C15 % 2**64
    return mixed


def first_line(number, before, resource, incarnation):
    return f"{CONTINUES}{number} {digest_of(before)} {resource} {incarnation};\n"


def joined(files):
    """The texts of rows of files, each by the first one's path; and an empty one for each file that goes on from none that is given."""
    rows, taken = [], set()
    for first, (path, text) in enumerate(files):
        if text.startswith(CONTINUES):
            continue
        taken.add(first)
        noted, last, number = text, text, 1
        while True:
            front = f"{CONTINUES}{number} {digest_of(last)} "
            following = [k for k, (_, it) in enumerate(files) if it.startswith(front)]
            if not following:
                break
            taken.add(following[0])
            last, number = files[following[0]][1], number + 1
            noted += "".join(last.partition("\n")[1:])
        rows.append((path, noted))
    return rows + [(path, "") for k, (path, _) in enumerate(files) if k not in taken]


def numbers_of(path):
    """The numbers of what stands in the place of further files."""
    folder, name = os.path.split(path)
    ends = [it[len(name) + 1 :] for it in os.listdir(folder or ".") if it.startswith(f"{name}.")]
    return [int(it) for it in ends if it.isascii() and it.isdigit() and it[0] != "0"]


def is_further(path):
    if not os.path.isfile(path):
        return False
    with open(path, "rb") as file:
        return file.read(len(CONTINUES)) == CONTINUES.encode()


def single_journal(path, tell=None):
    """A file to which alone a node notes: no further one goes on from it."""
    if any(is_further(f"{path}.{it}") for it in numbers_of(path)):
        raise OSError("it goes on in further files")
    return Journal(path, tell)


class RowJournal(Journal):
    """The files to whose last one a node notes, each of so many bytes at most, where more than one note stands in it."""

    def __init__(self, path, resource, size, tell=None):
        super().__init__(path, tell)
        self.first, self.resource, self.size, self.incarnation = path, resource, size, 0
        self.number = max([0, *numbers_of(path)])
        self.path = f"{path}.{self.number}" if self.number else path
        if self.number and not is_further(self.path):
            raise OSError("the last file is none of the journal's")

    def note(self, line):
        words = line.lstrip("\n").split()
        if words[0] in ("START", "RESTART"):
            self.incarnation = int(words[2])
        if os.path.isfile(self.path) and not self.is_given_up:
            with open(self.path, encoding="utf-8", newline="") as file:
                before = file.read()
            if before and len(before.encode()) + len(f"{line};\n".encode()) > self.size:
                self.number += 1
                self.path = f"{self.first}.{self.number}"
                with open(self.path, "x", encoding="utf-8", newline="") as file:
                    file.write(first_line(self.number, before, self.resource.name, self.incarnation))
        super().note(line)
