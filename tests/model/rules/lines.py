"""A text as its lines."""


def lines_of(text):
    """The lines of a text. A line feed at the end begins no further line, and an empty text is one empty line.

    One carriage return right before a line feed, or at the end of the text, is dropped.
    """
    parts = text.split("\n")
    if len(parts) > 1 and not parts[-1]:
        parts.pop()
    return [part.removesuffix("\r") for part in parts]


def is_comment(row):
    """Whether a row, blanks at both ends aside, begins with (* and ends with the first *) behind that."""
    row = row.strip()
    return row.startswith("(*") and row.find("*)", 2) == len(row) - 2 >= 2


def without_comments(text):
    """The text with an empty row in the place of each comment."""
    return "\n".join("" if is_comment(row) else row for row in text.split("\n"))
