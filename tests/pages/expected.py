"""What a text tells, by its lines, and where what is drawn differs from it."""
import re

from rules.drawing import Drawing
from rules.lines import is_comment

MARKS = {"RESTART": "restart", "REFUSED": "refused", "FAULT": "fault", "UNANSWERED": "unanswered", "UNSHOWN": "unshown", "NOJOURNAL": "unshown", "OVERRUN": "overrun", "FIELD": "ended", "UNNOTED": "unnoted"}
# The word of a line that names its lane.
PLACES = {"EVAL": 2, "DELIVER": 2, "RESTART": 1, "START": 1, "HEAR": 1, "FAULT": 1, "OVERRUN": 1, "EXPECT": 1}


# Ladders.


def ladder_rows(text):
    return [line.removesuffix("\r").rstrip(" ") for line in text.removesuffix("\n").split("\n")]


def ladder_of(rows):
    drawing = Drawing(["" if is_comment(row) else row for row in rows])
    drawing.comments = [(k, len(row) - len(row.lstrip()), row.strip()) for k, row in enumerate(rows) if is_comment(row)]
    drawing.mark_places()
    return drawing


def ladder_differences(drawing, drawn):
    """Symbols, boxes, pins, words and comments: each stands where it is drawn in the text, whole, and none else."""
    symbols = sorted((it.row - 1, it.column - 1, it.is_coil, it.sign, it.name) for it in drawing.symbols)
    boxes = sorted((it.top - 1, it.left - 1, it.name) for it in drawing.boxes)
    pins = sorted((pin.row - 1, pin.name) for box in drawing.boxes for pin in box.pins)
    words = sorted((it.row - 1, it.column - 1, it.text) for it in drawing.words)
    yield from differs("symbols", symbols, sorted(tuple(it[:5]) for it in drawn["symbols"]))
    yield from differs("comments", drawing.comments, list(map(tuple, drawn["comments"])))
    yield from differs("boxes", boxes, sorted(map(tuple, drawn["boxes"])))
    yield from differs("pins", pins, sorted((row, name) for row, _, name in drawn["pins"]))
    yield from differs("words", words, sorted(map(tuple, drawn["words"])))
    yield from drawn["wrong"]


def power_differences(rows, shown, drawing, drawn, scan):
    """Power stands at just the places whose sign the text changed; a contact or coil has it where both its sides do."""
    changed = {(row, column) for row, line in enumerate(rows) for column, sign in enumerate(line) if shown[row][column] != sign}
    yield from differs(f"places with power in scan {scan + 1}", sorted(changed), sorted(map(tuple, drawn["live"])))
    for row, column, is_coil, _, name, is_live in drawn["symbols"]:
        has_left = (row, column - 1) in changed or rows[row][column - 1 : column] in ("|", "+") and column - 1 == drawing.rail - 1
        behind = (row, column + 3)
        is_known = is_coil or rows[row][column + 3 : column + 4] == "-"
        wanted = has_left and (is_coil or behind in changed)
        if is_live and not wanted or wanted and is_known and not is_live and rows[row][column - 1 : column] in ("-", "|", "+"):
            yield f"scan {scan + 1}: {name} at {row}:{column} is drawn {'with' if is_live else 'without'} power"


def worth_differences(drawing, rows, drawn, scan):
    """Names of bits that are 1 are bold; what stands beside another name is its value."""
    values = {name.upper(): value for name, value in zip(names_of(rows[0]), values_of(rows[scan]))}
    bits = {name.upper() for k, name in enumerate(names_of(rows[0])) if all(values_of(row)[k] in ("0", "1") for row in rows)}
    on = sorted((it.row - 1, it.column - 1) for it in drawing.words if it.text.upper() in bits and values[it.text.upper()] == "1")
    yield from differs(f"names that are 1 in scan {scan + 1}", on, sorted(map(tuple, drawn["on"])))
    for name, value in drawn["worths"]:
        if values.get(name.upper()) != value:
            yield f"scan {scan + 1}: beside {name} stands {value}"


# Timing diagrams.


def names_of(row):
    return [word.partition("=")[0] for word in row.split(" ")]


def values_of(row):
    return [word.partition("=")[2] for word in row.split(" ")]


def number_of(value):
    return int(value.removeprefix("T#").removesuffix("ms"))


def timing_differences(rows, drawn, scan):
    """Each variable with its value in the scan shown, and a line whose height rises and falls as its values do, over the scans in view."""
    names = names_of(rows[0])
    yield from differs(f"values of scan {scan + 1}", list(zip(names, values_of(rows[scan]))), [tuple(it) for it in drawn["names"]])
    if drawn["cut"]:
        yield f"names are cut: {drawn['cut']}"
    unit, first, last = drawn["width"], drawn["first"], drawn["last"]
    if not first <= scan < last or (last - first) * unit < min(len(rows) * unit, drawn["room"]):
        yield f"scans {first + 1} to {last} are drawn, {scan + 1} is shown"
    for k, (name, wave, _) in enumerate(drawn["waves"]):
        values = [number_of(values_of(row)[k]) for row in rows]
        least, most = min(0, *values), max(min(0, *values) + 1, *values)
        levels = levels_of(wave, unit, last - first)
        if name != names[k] or levels is None:
            yield f"the line of {names[k]} isn't over all scans in view"
            continue
        bottom = 34 * (k + 1) + 34 - 7
        wanted = [bottom - (value - least) / (most - least) * 19 for value in values[first:last]]
        off = [first + scan + 1 for scan, (one, two) in enumerate(zip(wanted, levels)) if abs(one - two) > 0.6]
        if off:
            yield f"the line of {name} is off in scans {off[:5]}"
    if abs(drawn["cursor"] - (scan - first) * unit) > 1:
        yield f"the line at scan {scan + 1} stands elsewhere"


def levels_of(wave, unit, count):
    """The height of a line in each scan."""
    levels, level, x = [], None, 0.0
    for sign, told in re.findall(r"([MVH])([-\d. ]+)", wave):
        parts = [float(it) for it in told.split()]
        if sign == "M":
            level = parts[1]
        elif sign == "V":
            level = parts[0]
        else:
            levels += [level] * round((parts[0] - x) / unit)
            x = parts[0]
    return levels if len(levels) == count else None


# Events.


class Told:
    """By its number from 1 each line that is an event, and what it means for those below it."""

    def __init__(self, lines):
        self.lines = lines
        self.points, self.arrows, self.deliveries, self.marks, self.lanes, self.restarts = {}, [], [], {}, [], []
        self.made, self.pairs, self.now, self.own, self.places = {}, {}, {}, None, {}
        for number, line in enumerate(lines, 1):
            self.add(number, line.split(" "))

    def lane(self, name):
        if name not in self.lanes:
            self.lanes.append(name)

    def add(self, number, words):
        what = words[0]
        if what in PLACES:
            self.places[number] = words[PLACES[what]].partition(".")[0]
        if what == "EVAL":
            self.evaluation(number, words)
        elif what == "DELIVER":
            self.lane(words[2])
            if words[1] in self.made:
                self.deliveries.append((self.made[words[1]], number))
            self.mark(number, words[3])
        elif what == "MESSAGE":
            pair = (words[1], words[2])
            self.lane(words[1].partition(".")[0])
            if pair in self.pairs:
                self.deliveries.append((self.pairs[pair], number))
            elif words[3] == "taken":
                self.pairs[pair] = number
            self.mark(number, words[3])
        elif what in ("RESTART", "START"):
            self.lane(words[1])
            self.own = words[1]
            self.now[words[1]] = max(self.now.get(words[1], 1), int(words[2]))
            if what == "RESTART" or words[2] != "1":
                self.marks[number] = "restart"
            self.restarts.append(words[1])
        elif what == "EXPECT":
            self.lane(words[1].partition(".")[0])
            self.mark(number, "taken" if words[2] == "met" else "unmet")
        elif what == "REPLAY" and words[-1] == "differs":
            self.marks[number] = "replay"
        elif what in MARKS:
            self.marks[number] = MARKS[what]

    def mark(self, number, answer):
        if answer != "taken":
            self.marks[number] = answer

    def evaluation(self, number, words):
        task, pair = words[2], words[3]
        resource = task.partition(".")[0]
        self.lane(resource)
        self.points[number] = task
        for word in words[5 : words.index("GIVES")]:
            producer, _, taken = word.partition("=")
            if taken and taken != "-":
                other = producer.partition(".")[0]
                is_over = int(taken.partition(".")[0]) != self.now.get(other, 1)
                self.arrows.append((str(self.pairs.get((producer, taken), "")), str(number), is_over))
        if resource in self.now and int(pair.partition(".")[0]) > self.now[resource]:
            self.restarts.append(resource)
        self.made[words[1]] = number
        self.pairs[task, pair] = number
        self.now[resource] = max(self.now.get(resource, 1), int(pair.partition(".")[0]))


def lanes_differences(lines, drawn):
    told = Told(lines)
    yield from differs("events", list(range(1, len(lines) + 1)), [it["line"] for it in drawn["events"]])
    at = {it["line"]: it for it in drawn["events"]}
    yield from differs("points", sorted(told.points.items()), sorted((it["line"], it["task"]) for it in drawn["events"] if it["task"]))
    arrows = [(it["from"], it["to"], it["dashed"] if it["from"] else is_over_of(it, told)) for it in drawn["arrows"]]
    yield from differs("arrows", sorted(told.arrows), sorted(arrows))
    yield from differs("deliveries", sorted((str(a), str(b)) for a, b in told.deliveries), sorted((it["from"], it["to"]) for it in drawn["deliveries"]))
    yield from differs("marks", sorted(told.marks.items()), sorted((it["line"], mark_of(it)) for it in drawn["events"] if it["isMark"]))
    breaks = [sum(it == head["name"] for it in told.restarts) for head in drawn["heads"]]
    yield from differs("breaks of lanes", breaks, drawn["breaks"])
    yield from place_differences(told, drawn, at)
    yield from colour_differences(told, drawn)
    yield from label_differences(lines, at)


def track_differences(lines, drawn):
    """A variable in a lane has each value from the evaluation on that gave it, until one gave another."""
    at = {it["y"]: it["line"] for it in drawn["events"]}
    for name, values in drawn["tracks"]:
        resource, _, output = name.partition(".")
        wanted = []
        for number, line in enumerate(lines, 1):
            words = line.split(" ")
            if words[0] == "EVAL" and words[2].partition(".")[0] == resource:
                given = dict(it.split("=") for it in words[words.index("GIVES") + 1 :] if "=" in it)
                if output in given and (not wanted or wanted[-1][1] != given[output]):
                    wanted.append((number, given[output]))
        yield from differs(f"values of {name}", wanted, [(at.get(y), value) for y, value in values])


def is_over_of(arrow, told):
    """An arrow from an evaluation that isn't in the text is dotted in either case."""
    return next((is_over for source, to, is_over in told.arrows if (source, to) == (arrow["from"], arrow["to"])), None)


def mark_of(event):
    return next((it.removeprefix("is-") for it in event["kinds"] if it.startswith("is-")), "")


def place_differences(told, drawn, at):
    """Each line between events begins and ends at the rows of these, and in their lanes."""
    lefts = {it["name"]: (it["left"], it["left"] + it["width"] + 8) for it in drawn["heads"]}
    for lane in told.lanes:
        if lane not in lefts:
            yield f"the lane {lane} is missing"
    for it in drawn["arrows"] + drawn["deliveries"]:
        x1, y1, x2, y2 = it["ends"]
        if it["from"] and (abs(y1 - at[int(it["from"])]["y"]) > 1 or abs(y2 - at[int(it["to"])]["y"]) > 1):
            yield f"a line from {it['from']} to {it['to']} begins or ends in another row"
        for line, x in ((it["from"], x1), (it["to"], x2)):
            task = told.points.get(int(line)) if line else None
            first, last = lefts.get(task.partition(".")[0], (0, 1e9)) if task else (0, 1e9)
            if not first - 45 <= x <= last + 45:
                yield f"a line from {it['from']} to {it['to']} begins or ends in another lane"
    for line, lane in told.places.items():
        first, last = lefts.get(lane, (0, 0))
        x = at[line]["x"] if line in at else None
        if x is None or not first <= x <= last:
            yield f"the sign of line {line} isn't in the lane {lane}"
    if any(it["cut"] for it in drawn["heads"]):
        yield "the name of a lane is cut"


def colour_differences(told, drawn):
    """Tasks are told apart by colour and shape, and an arrow has the colour of the task that is taken from."""
    looks = {}
    for it in drawn["events"]:
        if it["task"]:
            looks.setdefault(it["task"], set()).add((it["fill"], it["shape"]))
    if any(len(it) > 1 for it in looks.values()) or len(set().union(*looks.values())) < len(looks):
        yield "two tasks look alike, or one looks different from place to place"
    for it in drawn["arrows"]:
        task = told.points.get(int(it["from"])) if it["from"] else None
        if task and it["colour"] not in {fill for fill, _ in looks.get(task, ())}:
            yield f"the arrow from {it['from']} has another colour than {task}"


def label_differences(lines, at):
    for number, line in enumerate(lines, 1):
        words = line.split(" ")
        label = " ".join(at[number]["labels"]) if number in at else ""
        if words[0] == "EVAL":
            wanted = [f"{words[2].partition('.')[2]} {words[3]}"]
        elif words[0] == "DELIVER":
            wanted = [f"{words[1]} {words[3]}"]
        elif words[0] == "MESSAGE":
            wanted = [f"{words[1]} {words[2]} {words[3]}"]
        elif words[0] in ("RESTART", "START"):
            wanted = [words[0].lower(), words[2]]
        elif words[0] in ("REFUSED", "UNANSWERED", "UNSHOWN", "NOJOURNAL", "REPLAY", "OVERRUN", "FIELD", "INPUT"):
            wanted = [line]
        elif words[0] == "FAULT":
            wanted = [words[2], words[3]]
        elif words[0] == "EXPECT":
            wanted = [line.partition(".")[2]]
        else:
            wanted = []
        if not all(it in label for it in wanted):
            yield f"line {number} is told as {label!r}"


def differs(what, wanted, drawn):
    if wanted != drawn:
        if isinstance(wanted, list):
            missing = [it for it in wanted if it not in drawn][:3]
            more = [it for it in drawn if it not in wanted][:3]
            yield f"{what}: {len(wanted)} wanted, {len(drawn)} drawn; missing {missing}, too many {more}"
        else:
            yield f"{what}: {wanted} wanted, {drawn} drawn"
