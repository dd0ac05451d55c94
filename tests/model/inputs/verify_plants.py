"""Small plants with claims, by chance: handshakes over a zone, some with a slip, and whatever is drawn; two or three resources."""
import os
import random
import re
import tempfile
from collections import deque
from dataclasses import dataclass, field
from itertools import islice, product

from rules import verify_plant, words
from rules.commands import SHAPES, Files, Refused, question_of, read_words
from rules.inputs import Inputs
from rules.plant_text import read_plant
from rules.refusal import Refusal
from rules.schedule import Deliver, Evaluate, Hear, Restart, events_of
from rules.words import is_literal

from .beside import BITS, with_beside
from .drawings import Drawer, cased
from .pieces import in_a_row, symbol
from .plants import INTERVALS, PlantMaker, Variables

# A plant with more states is drawn anew.
MOST_STATES = 500
# So many are enough for the program too, where counters and timers stand beside what is needed, which have more.
ENOUGH_STATES = 30_000
# So many runs are tried that are to break a claim with fewer evaluations and restarts.
MOST_RUNS = 400


@dataclass
class Program:
    """A program type of rungs: of each the contacts and the coil, with their signs."""

    name: str
    inputs: list
    outputs: list
    rungs: list
    retained: list = field(default_factory=list)
    locals: list = field(default_factory=list)

    def names(self):
        return [*self.inputs, *self.outputs, *self.locals, *self.retained]

    def lines(self):
        yield f"PROGRAM {self.name}"
        yield f"VAR_INPUT {', '.join(self.inputs)} : BOOL; END_VAR"
        yield f"VAR_OUTPUT {', '.join(self.outputs)} : BOOL; END_VAR"
        if self.locals:
            yield f"VAR {', '.join(self.locals)} : BOOL; END_VAR"
        if self.retained:
            yield f"VAR RETAIN {', '.join(self.retained)} : BOOL; END_VAR"
        for rung in self.rungs:
            above, line = in_a_row([symbol(sign, name, 1) for sign, name in rung]).rows
            yield from ["|" + above, "+" + line]
        yield "END_PROGRAM"


def rung(text):
    """A rung such as `WANT /PERMIT S:KEPT`: its contacts, and the coil."""
    *contacts, coil = text.split()
    sign, _, name = coil.rpartition(":")
    return [*((f"|{'/' if it[0] == '/' else ' '}|", it.lstrip("/")) for it in contacts), (f"({sign or ' '})", name)]


def rungs(text):
    return [rung(it) for it in text.split(",")]


def asker(draft):
    """Who asks for the zone: by the drafts from asking alone to one that tells "nothing yet" from "no"."""
    inputs, outputs = ["WANT", "PERMIT"], ["ASK", "INSIDE"]
    if draft == 1:
        return Program("ASKER", inputs, outputs, rungs("WANT PERMIT INSIDE,WANT ASK"))
    if draft == 2:
        return Program("ASKER", inputs, outputs, rungs("WANT /PERMIT S:ASK,PERMIT /WANT R:ASK,WANT ASK PERMIT INSIDE"))
    if draft == 3:
        return Program("ASKER", inputs, outputs, rungs("WANT /PERMIT S:KEPT,PERMIT /WANT R:KEPT,KEPT ASK,WANT KEPT PERMIT INSIDE"), ["KEPT"])
    drawn = rungs("WANT /PERMIT THERE S:KEPT,PERMIT /WANT R:KEPT,KEPT ASK,HERE,WANT KEPT PERMIT INSIDE")
    return Program("ASKER", [*inputs, "THERE"], [*outputs, "HERE"], drawn, ["KEPT"])


def owner(draft):
    inputs, outputs = ["WANT", "ASKED"], ["PERMIT", "INSIDE"]
    if draft == 1:
        return Program("OWNER", inputs, outputs, rungs("ASKED /INSIDE PERMIT,WANT /PERMIT /ASKED INSIDE"))
    if draft == 2:
        return Program("OWNER", inputs, outputs, rungs("ASKED /INSIDE S:PERMIT,/ASKED R:PERMIT,WANT /PERMIT INSIDE"))
    if draft == 3:
        return Program("OWNER", inputs, outputs, rungs("ASKED /INSIDE S:GIVEN,/ASKED R:GIVEN,GIVEN PERMIT,WANT /GIVEN INSIDE"), ["GIVEN"])
    drawn = rungs("ASKED /INSIDE S:GIVEN,THERE /ASKED R:GIVEN,GIVEN PERMIT,HERE,WANT /GIVEN INSIDE")
    return Program("OWNER", [*inputs, "THERE"], [*outputs, "HERE"], drawn, ["GIVEN"])


class Slips:
    """Makes a program another one, in one place."""

    def __init__(self, chance):
        self.chance = chance

    def slip(self, program):
        self.chance.choice([self.negate, self.leave_out_contact, self.other_coil, self.leave_out_rung, self.swap, self.forget])(program)

    def negate(self, program):
        drawn = self.chance.choice(program.rungs)
        if len(drawn) > 1:
            k = self.chance.randrange(len(drawn) - 1)
            sign, name = drawn[k]
            drawn[k] = ({"| |": "|/|", "|/|": "| |"}[sign], name)

    def leave_out_contact(self, program):
        drawn = self.chance.choice(program.rungs)
        if len(drawn) > 1:
            del drawn[self.chance.randrange(len(drawn) - 1)]

    def other_coil(self, program):
        drawn = self.chance.choice(program.rungs)
        drawn[-1] = (self.chance.choice(["( )", "(S)", "(R)", "(P)"]), drawn[-1][1])

    def leave_out_rung(self, program):
        if len(program.rungs) > 1:
            del program.rungs[self.chance.randrange(len(program.rungs))]

    def swap(self, program):
        k = self.chance.randrange(len(program.rungs))
        program.rungs.append(program.rungs.pop(k))

    def forget(self, program):
        program.locals, program.retained = program.locals + program.retained, []


class Zone:
    """A zone that robots share: R2 owns it, and R1 and now and then R3 ask for it. The owner may have two tasks, one of which enters."""

    def __init__(self, chance):
        self.chance = chance
        self.draft = chance.choice([1, 2, 2, 3, 3, 4, 4])
        self.programs = [asker(self.draft), owner(self.draft)]
        self.is_split = chance.random() < 0.35
        self.askers = ["R1", "R3"] if chance.random() < 0.2 else ["R1"]
        if self.is_split:
            self.split()
        if len(self.askers) > 1:
            self.ask_twice()
        for _ in range(chance.choice([0, 0, 1, 1, 2])):
            Slips(chance).slip(chance.choice(self.programs))

    def split(self):
        """INSIDE is the business of a task of its own, which takes what was given, and whose INSIDE the other one takes."""
        program = self.programs[1]
        own = [it for it in program.rungs if it[-1][1] == "INSIDE"]
        program.rungs = [it for it in program.rungs if it not in own]
        program.outputs.remove("INSIDE")
        program.inputs[program.inputs.index("WANT")] = "INSIDE"
        self.programs.append(Program("MOVER", ["WANT", "BUSY", "ASKED"], ["INSIDE"], [[(sign, {"GIVEN": "BUSY", "PERMIT": "BUSY"}.get(name, name)) for sign, name in it] for it in own]))

    def ask_twice(self):
        """Of a second asker the owner hears as of the first one; it has one permit for each, and no order among them."""
        self.programs[1].inputs += ["SECOND"]
        self.programs[1].outputs += ["OTHER"]
        self.programs[1].rungs += rungs("SECOND /INSIDE /PERMIT OTHER" if self.is_split else "SECOND /INSIDE /PERMIT /ASKED OTHER")

    def lines(self):
        for program in self.programs:
            lines = list(program.lines())
            yield from with_beside(self.chance, lines, {"BOOL": program.names()}) if self.chance.random() < 0.4 else lines
        yield "CONFIGURATION ZONE"
        for name in self.askers:
            yield from self.resource(name, [self.use("A", "T", "ASKER", WANT="%IX0", PERMIT=f"R2.O.{'PERMIT' if name == 'R1' else 'OTHER'}", THERE="R2.O.HERE")])
        uses = [self.use("O", "T", "OWNER", WANT="%IX0", ASKED="R1.A.ASK", THERE="R1.A.HERE", INSIDE="R2.M.INSIDE", SECOND="R3.A.ASK")]
        if self.is_split:
            uses.append(self.use("M", "U", "MOVER", WANT="%IX0", BUSY="R2.O.PERMIT", ASKED="R1.A.ASK"))
        yield from self.resource("R2", uses)
        yield "END_CONFIGURATION"

    def resource(self, name, uses):
        yield f"  RESOURCE {name} ON NODE"
        for task in ["T", "U"] if name == "R2" and self.is_split else ["T"]:
            yield f"    TASK {task}(INTERVAL := {self.chance.choice(list(INTERVALS.values()))}, PRIORITY := 1);"
        yield from uses
        yield "  END_RESOURCE"

    def use(self, name, task, kind, **sources):
        program = next(it for it in self.programs if it.name == kind)
        bound = ", ".join(f"{it} := {source}" for it, source in sources.items() if it in program.inputs)
        return f"    PROGRAM {name} WITH {task} : {kind}({bound});"

    def text(self):
        return "\n".join([*self.lines(), ""])

    def claims(self):
        inside = ["R2.M.INSIDE" if self.is_split else "R2.O.INSIDE", *(f"{it}.A.INSIDE" for it in self.askers)]
        self.chance.shuffle(inside)
        return [",".join(self.chance.sample(inside, 2))]


class SmallDrawer(Drawer):
    def literal(self, kind):
        return self.chance.choice(["1", "2", "2", "3"] if kind == "INT" else ["T#10ms", "T#20ms", "T#30ms", "T#0s"])


class SmallPlant(PlantMaker):
    """A plant of any programs, each of few variables."""

    def __init__(self, chance):
        self.chance = chance
        self.types = {name: self.variables() for name in "ABC"[: chance.choice([1, 2, 2, 3])]}
        self.with_more = {name for name in self.types if chance.random() < 0.5}
        self.resources = ["R1", "R2", "R3"][: chance.choice([2, 2, 2, 3])]
        self.tasks, self.programs = {}, []
        for resource in self.resources:
            self.tasks[resource] = ["T1", "T2"][: chance.choice([1, 1, 2])]
            for k in range(chance.choice([1, 1, 2])):
                self.programs.append((resource, f"I{k}", chance.choice(self.tasks[resource]), chance.choice(list(self.types))))

    def variables(self):
        chance = self.chance
        return Variables(
            {f"U{k}": chance.choice(["BOOL"] * 5 + ["INT"]) for k in range(chance.randint(1, 3))},
            {**{f"Y{k}": chance.choice(["BOOL", "BOOL", "INT"]) for k in range(chance.choice([0, 1]))}, "Q": "BOOL"},
            {"M": "BOOL"} if chance.random() < 0.4 else {},
            {"L": "BOOL"} if chance.random() < 0.4 else {},
            {"X": chance.choice(["CTU", "CTU", "CTD", "TON", "TOF", "TP", "SR", "RS"])} if chance.random() < 0.6 else {},
        )

    def program_type(self, name, variables):
        lines = list(super().program_type(name, variables))
        return with_beside(self.chance, lines, variables.names().reads) if name in self.with_more else lines

    def drawer(self, names):
        return SmallDrawer(self.chance, names)

    def address(self, kind):
        return f"%IX{self.chance.randint(0, 1)}" if kind == "BOOL" else "%IW0"

    def bits(self):
        return [
            f"{resource}.{name}.{output}"
            for resource, name, _, kind in self.programs
            for output, it in self.types[kind].all_outputs().items()
            if it == "BOOL"
        ]

    def claims(self):
        """Of outputs that others may take too; now and then of one that is shown beside them."""
        bits = self.bits()
        if self.chance.random() < 0.06:
            bits += [f"{resource}.{name}.{BITS[0]}" for resource, name, _, kind in self.programs if kind in self.with_more]
        return [",".join(self.chance.sample(bits, min(len(bits), self.chance.choice([1, 2, 2, 2, 3])))) for _ in range(self.chance.choice([1, 1, 1, 2]))]


class CountingPlant(SmallPlant):
    """Such a plant, whose programs have counters up and down of which nothing shows the count. At PV of those up stands a number, at most 3, or nothing."""

    def variables(self):
        found, chance = super().variables(), self.chance
        found.boxes = {name: chance.choice(["CTU", "CTU", "CTD"]) for name in ["X", "X2"][: chance.choice([1, 1, 1, 2])]}
        return found

    def text(self):
        while True:
            text = super().text()
            if is_read(text) and not re.search(r"(?i)CV\|-*[A-Z_]|\.CV", text) and all(map(has_preset, boxes_in(text))):
                return text
            self.__init__(self.chance)


def boxes_in(text):
    return [box for it in read_plant(text).types for network in it.ladder.networks for box in network.boxes]


def has_preset(box):
    presets = [pin.operand.text for pin in box.pins if words.fold(pin.name) == "PV" and pin.is_left and pin.operand]
    return words.fold(box.block) != "CTU" or all(map(is_literal, presets))


def options(chance, plant):
    """Words that say which runs are looked at."""
    return [
        *chance.choice([["--no-restarts"], ["--no-restarts"], ["--restarts"], [], []]),
        *(["--dt", str(chance.choice([1, 5, 10, 20]))] if chance.random() < 0.15 else []),
        *(word for it in givens(chance, plant) for word in ("--given", it)),
        *([f"%IX{chance.randint(0, 1)}={chance.randint(0, 1)}"] if chance.random() < 0.2 else []),
        *([chance.choice(["%IW0=1", "%IW0=-2", "%IW0=0..2", "%IW0=2..3", "%iw0=-1..0"])] if chance.random() < 0.3 else []),
    ]


def givens(chance, plant):
    if isinstance(plant, Zone):
        return [chance.choice(["R1.A.ASK", "R1.A.INSIDE", "R2.O.PERMIT"])] if chance.random() < 0.1 else []
    bits = plant.bits()
    return chance.sample(bits, min(len(bits), chance.choice([0, 0, 0, 1, 1, 2])))


REFUSED = [
    ["--never", "R1.I0.NO"],
    ["--never", "R9.I0.Q"],
    ["--never", "R1.I9.Q"],
    ["--never", "R1.I0.U0"],
    ["--never", "R1.I0.Q,Q"],
    ["--never", "R1.I0.Q,"],
    ["--never", "R1.I0.Q.Q"],
    ["--never", "R1.I0"],
    ["--never", "Q"],
    ["--given", "R1.I0.U0"],
    ["--given", "Q"],
    ["--restarts", "--no-restarts"],
    ["%IX0=2"],
    ["%IX0=0..1"],
    ["%IW0=3..2"],
    ["%IW0=1", "%IW0=2"],
    ["%IW0=1..32768"],
    ["--dt"],
]


def decided(text, given):
    """The searches by which the model tells a verdict on each claim that depends on no limit; None where one depends on it."""
    with tempfile.TemporaryDirectory() as folder:
        with open(os.path.join(folder, "it.plant"), "w", encoding="utf-8", newline="") as file:
            file.write(text)
        question, claims = asked(given, folder)
    searches = [verify_plant.Search(question, it, MOST_STATES).search() for it in claims]
    is_any = all((it.steps or it.is_whole) and not it.loose_steps for it in searches)
    return searches if is_any and any(len(it.met) > 4 or it.never_given() for it in searches) else None


def enough_waiting(searches):
    """So many images may wait that no order is forgotten: one more than wait in these searches (where nothing is held yet, an image
    may wait that has the first values), and one more where these ended before all states."""
    rows = [channel.row for it in searches for point in it.met for channel in point.channels]
    return max(map(len, rows), default=1) + any(it.steps for it in searches)


def most_waiting(chance, searches):
    """Now and then how many images may wait: many, just enough, or fewer."""
    enough = enough_waiting(searches)
    choice = chance.choice([None, None, 12, enough, enough, enough - 1, enough - 2, 0])
    return [] if choice is None else ["--most-waiting", str(max(0, choice))]


def asked(given, folder):
    """What the words behind `verify` ask."""
    paths, options_given, more = read_words(SHAPES["verify"], given[1:])
    return question_of(Files(folder).plant(paths[0]), options_given, more)


def counted_claims(chance):
    """A plant with counters, with words that ask what of it is never on together."""
    return plant_claims(chance, CountingPlant)


def plant_claims(chance, maker=None):
    """A plant, with words that ask what of it is never on together, whatever its network does."""
    while True:
        plant = maker(chance) if maker else Zone(chance) if chance.random() < 0.5 else SmallPlant(chance)
        text = plant.text()
        given = ["verify", "it.plant", *(word for it in plant.claims() for word in ("--never", it)), *options(chance, plant)]
        searches = decided(text, given) if is_read(text) else None
        if searches:
            break
    given += [*most_waiting(chance, searches), *(["--most-states", str(ENOUGH_STATES)] if " E0 : " in text else [])]
    given += chance.choice([[], [], [], ["--strict"], ["--no-warnings"]])
    if chance.random() < 0.06:
        given += chance.choice(REFUSED)
    return {"it.plant": text}, [given]


def is_read(text):
    with tempfile.TemporaryDirectory() as folder:
        with open(os.path.join(folder, "it.plant"), "w", encoding="utf-8", newline="") as file:
            file.write(text)
        try:
            Files(folder).plant("it.plant")
        except Refused:
            return False
    return True


class Attempt:
    """A run of the world by chance that keeps to a question, and is to turn on the outputs of a claim."""

    def __init__(self, chance, question, claim):
        self.chance, self.claim, self.watched = chance, claim, verify_plant.Watched(question)
        self.tasks = verify_plant.sources_of([it.task for it in [*claim, *question.given]])
        self.resources = list(dict.fromkeys(it.resource for it in self.tasks))
        self.events = []
        self.restarts = chance.choice([0, 1, 2, 4]) if question.has_restarts else 0

    def succeeds(self, count):
        """Whether the outputs are on after one of so many events, if all that is given is left."""
        try:
            return any(self.is_on_after(event) for _ in range(count) for event in self.next())
        except verify_plant.Unkept:
            return False

    def is_on_after(self, event):
        self.events.append(event)
        self.watched.happen(event)
        return self.watched.are_on(self.claim)

    def next(self):
        return self.chance.choices([self.evaluation, self.delivery, self.restart], [6, 6, self.restarts])[0]()

    def evaluation(self):
        task, question = self.chance.choice(self.tasks), self.watched.question
        fields = [f"{space}{number}={int(self.chance.choice(question.values_of((space, number))))}" for space, number in verify_plant.addresses_of(task)]
        yield Evaluate(task.resource.name, task.name, question.elapsed_of(task), Inputs(fields))

    def delivery(self):
        log = self.watched.run.log
        if log:
            made = self.chance.choice(log[-self.chance.choice([1, 2, 4, 8]) :])
            yield Deliver(made.message, self.chance.choice(self.resources).name)

    def restart(self):
        """A restart; mostly all hear of it at once."""
        resource, nodes = self.chance.choice(self.resources), self.watched.run.nodes
        yield Restart(resource.name)
        for other in self.resources:
            if other is not resource and self.chance.random() < 0.8:
                yield Hear(other.name, resource.name, nodes[resource.place].incarnation)
                yield Hear(resource.name, other.name, nodes[other.place].incarnation)


def broken_by(chance, question, claim, runs=4, count=60):
    """The events of a run by chance after which the outputs of a claim are on; None where none of some runs does it."""
    attempts = [Attempt(chance, question, claim) for _ in range(runs)]
    return next((it.events for it in attempts if it.succeeds(count)), None)


def judged(given, folder, written, who):
    """The lines that tell of claims, without counts of states and steps. Behind FAILS stands how many evaluations and restarts the
    schedule has, or why it isn't one that was asked for; behind HOLDS, if a run by chance breaks it, its events. Where an order may
    have been forgotten, the right verdict and UNDECIDED are one."""
    lines = written.splitlines()
    if not lines:
        return written
    question, claims = asked(given, folder)
    searches = forgetful(question, claims, given)
    told, ahead = [], list(claims)
    while lines:
        line = lines.pop(0)
        if line.startswith("FAILS"):
            schedule = []
            while lines and not lines[0].startswith(("FAILS", "HOLDS", "UNDECIDED", "given")):
                schedule.append(lines.pop(0))
            claim = ahead.pop(0)
            line = judged_schedule(question, claim, line, schedule)
            line += cheaper(question, claim, schedule) if who == "program" and ", but " not in line else ""
        elif line.startswith("HOLDS"):
            line = re.sub(r": \d+ states?, \d+ steps?$", "", line) + broken(question, ahead.pop(0), written, who)
        elif line.startswith("UNDECIDED"):
            ahead.pop(0)
        if searches and not line.startswith("given"):
            line = either(searches.pop(0), line)
        told.append(line)
    return "".join(f"{it}\n" for it in told)


def forgetful(question, claims, given):
    """The searches in which no order is forgotten, where as few images may wait that one may have been."""
    few = read_words(SHAPES["verify"], given[1:])[1].get("--most-waiting")
    searches = [] if few is None else [verify_plant.Search(question, it, MOST_STATES).search() for it in claims]
    return searches if searches and few < enough_waiting(searches) else []


def either(search, line):
    """The verdict of a search in which no order is forgotten, where a line tells this, or that an order was."""
    verdict = "FAILS" if search.steps else "HOLDS"
    is_right = line.startswith(verdict) and ", but " not in line
    return f"{verdict} or UNDECIDED" if is_right or line.endswith("a larger --most-waiting may decide") else line


def judged_schedule(question, claim, line, schedule):
    try:
        events = list(events_of(schedule))
        verify_plant.check(question, claim, events)
    except verify_plant.Unkept as cause:
        return f"{line}, but {cause}"
    except Refusal:
        return f"{line}, but a line is no event"
    if [verify_plant.line_of(it) for it in events] != schedule:
        return f"{line}, but a line has another form"
    counted = f" after {verify_plant.counted(len(events), 'event')}"
    if not line.endswith(counted):
        return f"{line}, but the schedule has {len(events)}"
    return f"{line.removesuffix(counted)} after {verify_plant.cost_of(events)} evaluations and restarts"


def cheaper(question, claim, schedule):
    """The events of a run of the world with fewer evaluations and restarts, if there is one among the first that are tried."""
    most = verify_plant.cost_of(events_of(schedule)) - 1
    events = next((it for it in islice(runs_of(question, claim, most), MOST_RUNS) if verify_plant.does(question, claim, it)), None)
    return ", but fewer do it: " + ", ".join(map(verify_plant.line_of, events)) if events else ""


def runs_of(question, claim, most):
    """Runs of so many evaluations and restarts at most, the shortest first: before each evaluation a message of each task from which it
    takes is delivered, or none; of each restart all hear at once, or nobody does."""
    tasks = verify_plant.sources_of([it.task for it in [*claim, *question.given]])
    ahead = deque([([], 0)])
    while ahead:
        events, cost = ahead.popleft()
        if cost == most:
            continue
        watched = verify_plant.Watched(question)
        for event in events:
            watched.happen(event)
        for more in (*evaluations(question, tasks, watched.run.log), *restarts(question, tasks, watched.run.nodes)):
            yield [*events, *more]
            if keeps(question, [*events, *more]):
                ahead.append(([*events, *more], cost + 1))


def evaluations(question, tasks, log):
    for task in tasks:
        addresses = verify_plant.addresses_of(task)
        others = [it for it in task.producers() if it.resource is not task.resource]
        messages = [[None, *(made.message for made in log if made.task is it)] for it in others]
        for chosen, values in product(product(*messages), product(*map(question.values_of, addresses))):
            fields = Inputs(f"{space}{number}={int(value)}" for (space, number), value in zip(addresses, values))
            delivered = [Deliver(it, task.resource.name) for it in chosen if it is not None]
            yield [*delivered, Evaluate(task.resource.name, task.name, question.elapsed_of(task), fields)]


def restarts(question, tasks, nodes):
    resources = list(dict.fromkeys(it.resource for it in tasks))
    for one in resources if question.has_restarts else []:
        others = [it for it in resources if it is not one]
        heard = [Hear(it.name, one.name, nodes[one.place].incarnation + 1) for it in others]
        heard += [Hear(one.name, it.name, nodes[it.place].incarnation) for it in others]
        yield [Restart(one.name)]
        yield [Restart(one.name), *heard]


def keeps(question, events):
    """Whether each of these events may happen, and keeps to a question."""
    try:
        verify_plant.check(question, [], events)
    except verify_plant.Unkept:
        return False
    return True


def broken(question, claim, written, who):
    events = broken_by(random.Random(written), question, claim)
    return f", but of the {who}'s answer it isn't so after " + ", ".join(map(verify_plant.line_of, events)) if events else ""
