"""Pieces of a drawing: rows of one width, a line that comes in on the left and one that goes out on the right.

A piece has nothing in its first column but its line, and no word in its last one; so pieces can stand side by side.
"""
from dataclasses import dataclass


@dataclass
class Piece:
    """Rows from the top; `entry` and `exit` are the rows of its lines, and an open piece may be gone on from."""

    rows: list
    entry: int
    exit: int
    is_open: bool = True

    @property
    def width(self):
        return len(self.rows[0])


def wire(length):
    return Piece([" " * length, "-" * length], 1, 1)


def symbol(text, name, shift):
    """A contact or coil of three signs below its name, which begins so many places on its left or right."""
    before = max(1, -shift)
    width = before + max(3 + 1, shift + len(name) + 1)
    above = " " * (before + shift) + name
    return Piece([above.ljust(width), ("-" * before + text).ljust(width, "-")], 1, 1)


def beside(left, right):
    """Two pieces one behind the other."""
    above = max(left.exit, right.entry)
    moved = above - left.exit, above - right.entry
    height = max(moved[0] + len(left.rows), moved[1] + len(right.rows))
    rows = [a + b for a, b in zip(moved_down(left, moved[0], height), moved_down(right, moved[1], height))]
    return Piece(rows, left.entry + moved[0], right.exit + moved[1], right.is_open)


def moved_down(piece, by, height):
    blank = " " * piece.width
    return [blank] * by + piece.rows + [blank] * (height - by - len(piece.rows))


def in_a_row(pieces):
    whole = pieces[0]
    for piece in pieces[1:]:
        whole = beside(whole, piece)
    return whole


@dataclass
class Branch:
    piece: Piece
    is_joined: bool


def fork(branches, entry, from_rail=False):
    """Branches one below the other that begin at one upright (or at the rail) and meet again, but for loose ones.

    The line comes in at the branch `entry`, which is joined; it goes out at the first joined one. From the rail, branches may
    be None: rows that are kept free for something else.
    """
    width = max(it.piece.width + (not it.is_joined) for it in branches)
    rows, entries, exits, first_exit = [], [], [], None
    for it in branches:
        piece, top = it.piece, len(rows)
        fill = "-" if it.is_joined and piece.is_open else " "
        entries.append(top + piece.entry)
        rows += [row.ljust(width, fill if k == piece.exit else " ") for k, row in enumerate(piece.rows)]
        if it.is_joined and piece.is_open:
            exits.append(top + piece.exit)
    first_exit = exits[0] if exits else 0
    left = [""] * len(rows) if from_rail else line_into(upright(len(rows), entries), entries[entry])
    right = line_out_of(upright(len(rows), exits), first_exit) if exits else [" "] * len(rows)
    rows = [a + row + b for a, row, b in zip(left, rows, right)]
    return Piece(rows, entries[entry], first_exit, bool(exits)), entries


def line_into(column, at):
    return [("-" if row == at else " ") + sign for row, sign in enumerate(column)]


def line_out_of(column, at):
    return [sign + ("-" if row == at else " ") for row, sign in enumerate(column)]


def upright(height, joins):
    column = [" "] * height
    for row in range(min(joins), max(joins) + 1):
        column[row] = "+" if row in joins else "|"
    return column


def box(block, name, shift, sides):
    """A box below its name. A side is a row: left and right pin, each with what leads to it or from it (see `Side`)."""
    inner = max(len(block) + 2, *(len(it.left_pin) + len(it.right_pin) + 2 for it in sides))
    left = max(2, *(len(it.left) for it in sides)) + 2
    border = "+" + "-" * inner + "+"
    rows = [" " * max(1, left + shift) + name, " " * left + border, " " * left + it_in(block, inner)]
    entry = next(k for k, it in enumerate(sides) if it.is_entry)
    feeds = [k for k, it in enumerate(sides) if it.is_entry or it.is_fed]
    for k, side in enumerate(sides):
        rows.append(left_part(side, k, entry, feeds, left) + pins(side, inner) + side.right)
    rows.append(" " * left + border)
    width = max(map(len, rows)) + 1
    line = 3 + entry
    is_open = sides[entry].is_exit
    rows = [row.ljust(width, "-" if k == line and is_open else " ") for k, row in enumerate(rows)]
    return Piece(rows, line, line, is_open)


def it_in(block, inner):
    return "|" + block.center(inner) + "|"


def pins(side, inner):
    gap = inner - len(side.left_pin) - len(side.right_pin)
    if side.left_pin and side.right_pin:
        return "|" + side.left_pin + " " * gap + side.right_pin + "|"
    return "|" + (side.left_pin.ljust(inner) if side.left_pin else side.right_pin.rjust(inner)) + "|"


def left_part(side, row, entry, feeds, width):
    """What leads to a left pin: the line, a line from the upright beside it, an operand, or nothing."""
    is_on_upright = min(feeds) <= row <= max(feeds)
    if side.is_entry:
        return ("-+" if len(feeds) > 1 else "--").ljust(width, "-")
    if side.is_fed:
        return " +".ljust(width, "-")
    if side.left:
        return (" |" if is_on_upright and len(feeds) > 1 else "  ") + side.left.rjust(width - 2)
    return (" |" if is_on_upright and len(feeds) > 1 else "  ").ljust(width)


@dataclass
class Side:
    """A row of a box. `left` and `right` are texts outside: an operand with its dashes, a loose line, or nothing."""

    left_pin: str = ""
    right_pin: str = ""
    left: str = ""
    right: str = ""
    is_entry: bool = False
    is_fed: bool = False
    is_exit: bool = False
