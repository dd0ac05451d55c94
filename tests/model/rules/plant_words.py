"""The text of a plant as words, one after the other, and the bodies between them."""
import re
from bisect import bisect_right
from itertools import accumulate

from .lines import lines_of
from .refusal import Refusal
from .words import fold

WORD = re.compile(r"%?[A-Za-z0-9_#]+|:=|[.:;,()]")
SECTIONS = ("VAR", "VAR_INPUT", "VAR_OUTPUT")


class PlantWords:
    """The lines of a text and the place before which all has been read."""

    def __init__(self, text):
        self.lines = lines_of(text)
        self.text = "\n".join(self.lines)
        self.starts = list(accumulate((len(line) + 1 for line in self.lines[:-1]), initial=0))
        self.at = 0

    def line_at(self, at):
        return bisect_right(self.starts, at)

    def syntax(self, at):
        return Refusal("Syntax", self.line_at(at))

    def behind_gap(self, at, spaces=" \t\n"):
        """The place behind blanks and comments, which is where a word begins; a comment without end is refused."""
        while True:
            if self.text.startswith("(*", at):
                end = self.text.find("*)", at + 2)
                if end < 0:
                    raise self.syntax(len(self.text))
                at = end + 2
            elif at < len(self.text) and self.text[at] in spaces:
                at += 1
            else:
                return at

    def peek(self):
        """The next word and where it begins; an empty one at the end of the text."""
        at = self.behind_gap(self.at)
        if at == len(self.text):
            return "", at
        found = WORD.match(self.text, at)
        if not found:
            raise self.syntax(at)
        return found.group(), at

    def take(self):
        """The next word and its line."""
        word, at = self.peek()
        self.at = at + len(word)
        return word, self.line_at(at)

    def sees(self, *keywords):
        return fold(self.peek()[0]) in keywords

    def sees_section(self):
        """Whether a block of variables comes; what is no word is none, and may be part of a body."""
        try:
            return self.sees(*SECTIONS)
        except Refusal:
            return False

    # Bodies.

    def take_body(self):
        """The lines of a body up to END_PROGRAM alone on a line, and the number of the first."""
        first = self.next_line()
        for number in range(first, len(self.lines) + 1):
            end = self.end_of_body(number)
            if end is not None:
                self.at = end
                return self.lines[first - 1 : number - 1], first
        raise self.syntax(len(self.text))

    def next_line(self):
        """The number of the line below this one, on which nothing but blanks and whole comments follow."""
        number = self.line_at(self.at)
        if self.at_end_of_line(self.at) is None:
            raise self.syntax(self.at)
        return number + 1

    def at_end_of_line(self, at):
        """The end of a line, where only blanks and comments that end on it come before; else None."""
        line = self.line_at(at)
        try:
            end = self.behind_gap(at, " \t")
        except Refusal:
            return None
        is_end = self.line_at(end) == line and (end == len(self.text) or self.text[end] == "\n")
        return end if is_end else None

    def end_of_body(self, number):
        """The place behind END_PROGRAM, where it is the only word of a line; a comment behind it may run on."""
        start = self.starts[number - 1]
        try:
            at = self.behind_gap(start, " \t")
        except Refusal:
            return None
        found = WORD.match(self.text, at)
        if self.line_at(at) != number or not found or fold(found.group()) != "END_PROGRAM":
            return None
        rest = self.lines[number - 1][found.end() - start :]
        rest = re.sub(r"\(\*.*?\*\)", " ", rest).partition("(*")[0]
        return None if rest.strip(" \t") else found.end()
