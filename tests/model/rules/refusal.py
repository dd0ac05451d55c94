"""What a refused text is told by: a kind and a place."""


class Refusal(Exception):
    """A kind of fault; `within` is the layer that a plant tells beside it (Drawing, Graph or Bind)."""

    def __init__(self, kind, line, column=None, within=None):
        super().__init__(kind)
        self.kind, self.line, self.column, self.within = kind, line, column, within


def refuse_first(kind, places, first_line, within):
    """Refuses where there are such places: the first by line and then by column."""
    if places:
        row, column = min(places)
        raise Refusal(kind, first_line + row - 1, column, within)
