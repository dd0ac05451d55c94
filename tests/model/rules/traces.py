"""Variables with their values at each of some moments: as a value change dump, and as a timing diagram."""
from dataclasses import dataclass
from itertools import groupby

from . import words

BITS = {"BOOL": 1, "INT": 16, "TIME": 32}


@dataclass
class Track:
    """A variable: the names of the resource and the program in which it stands, if it stands in a plant."""

    scope: tuple | None
    name: str
    kind: str
    values: list

    def label(self):
        return ".".join([*(self.scope or ()), self.name])


def dump(times, tracks):
    """A value change dump (IEEE 1364): when each moment begins, the first one at 0, and when the last one ends.

    What changes at several moments of one time stands below that time, one moment behind the other."""
    lines = ["$timescale 1 ms $end", *declared(tracks), "$enddefinitions $end", "#0", "$dumpvars"]
    lines += [value_line(code, it.kind, it.values[0]) for code, it in coded(tracks)]
    lines += ["$end"]
    for time, moments in groupby(range(1, len(times) - 1), key=lambda k: times[k]):
        changes = [line for k in moments for line in changes_at(k, tracks)]
        lines += [f"#{time}", *changes] if changes else []
    return "".join(f"{line}\n" for line in [*lines, f"#{times[-1]}"])


def changes_at(k, tracks):
    return [value_line(code, it.kind, it.values[k]) for code, it in coded(tracks) if it.values[k] != it.values[k - 1]]


def coded(tracks):
    return [(f"v{number}", it) for number, it in enumerate(tracks)]


def declared(tracks):
    """The variables, each in the scopes of its resource and its program."""
    scope = None
    for code, it in coded(tracks):
        if it.scope != scope:
            yield from left(scope)
            yield from [f"$scope module {name} $end" for name in it.scope or ()]
            scope = it.scope
        yield f"$var wire {BITS[it.kind]} {code} {it.name} $end"
    yield from left(scope)


def left(scope):
    return ["$upscope $end"] * len(scope or ())


def value_line(code, kind, value):
    """A BOOL is one digit; other values are binary without zeros in front, an INT below 0 in two's complement."""
    return f"{value:d}{code}" if kind == "BOOL" else f"b{value % 2 ** BITS[kind]:b} {code}"


# The diagram: its first moment begins behind the names, a row is 26 high.

STYLE = (
    "text{font:12px monospace}path{fill:none;stroke:#2a7d2a}.h{fill:#cfe8cf}.b{fill:#e3ebf8;stroke:#3b5f9e}"
    ".g{stroke:#dcdcdc}.s{fill:#707070}"
)


@dataclass
class Scale:
    left: int
    unit: int

    def x(self, moment):
        return self.left + self.unit * moment

    def mark_every(self):
        """So many moments are between two marks."""
        return next((marks for least, marks in ((60, 2), (24, 5), (12, 10), (6, 20)) if self.unit >= least), 100)


def diagram(title, times, tracks):
    """A timing diagram (SVG): the moments stand side by side, whatever their times."""
    moments = len(times) - 1
    longest = max((len(it.label()) for it in tracks), default=0)
    scale = Scale(8 * min(255, longest) + 24, max(2, min(60, 1600 // max(1, moments))))
    bottom = row_top(len(tracks))
    lines = [f"<svg xmlns='http://www.w3.org/2000/svg' width='{scale.x(moments) + 100}' height='{bottom + 10}'>"]
    lines += [f"<title>{escaped(title)}</title>", f"<style>{STYLE}</style>", "<rect width='100%' height='100%' fill='#fff'/>"]
    for k in range(0, moments, scale.mark_every()):
        x = scale.x(k)
        lines.append(f"<path class='g' d='M{x} 22V{bottom}'/><text class='s' x='{x}' y='16'>{times[k]} ms</text>")
    for row, it in enumerate(tracks):
        lines += row_lines(scale, row_top(row), it)
    return "".join(f"{line}\n" for line in [*lines, "</svg>"])


def row_top(row):
    return 30 + 26 * row


def row_lines(scale, top, track):
    label = escaped(track.label())
    yield f"<g><title>{label}</title>"
    yield f"<text x='8' y='{top + 17}'>{label}</text>"
    for start, end, value in stretches(track.values):
        left, right = scale.x(start), scale.x(end)
        if track.kind == "BOOL" and value:
            yield f"<path class='h' d='M{left} {top + 22}V{top + 4}H{right}V{top + 22}'/>"
        elif track.kind == "BOOL":
            yield f"<path d='M{left} {top + 22}H{right}'/>"
        else:
            yield from band_lines(min(3, scale.unit // 2), left, right, top, words.shown(value))
    yield "</g>"


def band_lines(slant, left, right, top, value):
    ends = f"l{slant} -9H{right - slant}l{slant} 9l-{slant} 9H{left + slant}Z"
    yield f"<path class='b' d='M{left} {top + 13}{ends}'><title>{value}</title></path>"
    if len(value) <= (right - left - 12) // 7:
        yield f"<text x='{left + 6}' y='{top + 17}'>{value}</text>"


def stretches(values):
    """Where a value stays: from which moment, up to which, which one."""
    start = 0
    for k in range(1, len(values) + 1):
        if k == len(values) or values[k] != values[start]:
            yield start, k, values[start]
            start = k


def escaped(text):
    names = {"<": "&lt;", ">": "&gt;", "&": "&amp;"}
    return "".join(names.get(sign, "?" if sign < " " or sign in "\ufffe\uffff" else sign) for sign in text)
