"""Schedules for plants: evaluations, deliveries in any order, losses, repeats, restarts, hearings, what is expected, and lines that
aren't lawful."""
from .drawings import cased
from .plants import PlantMaker, inputs
from .traces import trace_words


class ScheduleMaker:
    def __init__(self, chance, plant):
        self.chance, self.plant = chance, plant
        self.made = 0
        self.incarnations = {it: 1 for it in plant.resources}
        # How often something happens, in this schedule.
        self.share = {
            self.evaluation: 10,
            self.delivery: chance.choice([3, 12, 25]),
            self.restart: chance.choice([0, 1, 3]),
            self.hearing: chance.choice([0, 1, 4]),
            self.unlawful: chance.choice([0, 0, 1]),
            self.empty: chance.choice([0, 1]),
            self.expectation: chance.choice([0, 0, 4]),
        }

    def lines(self, count):
        events = self.chance.choices(list(self.share), weights=list(self.share.values()), k=count)
        lines = [line for event in events for line in event()]
        if self.chance.random() < 0.1:
            lines.insert(self.chance.randint(0, len(lines)), self.chance.choice(NO_EVENTS))
        return lines

    def resource(self):
        return self.chance.choice(self.plant.resources)

    def task(self, resource=None):
        resource = resource or self.resource()
        return f"{resource}.{self.chance.choice(self.plant.tasks[resource])}"

    def evaluation(self, resource=None):
        """An evaluation; now and then its message goes to all at once."""
        self.made += 1
        elapsed = self.chance.choice([0, 5, 10, 10, 20, 1000, 4294967295])
        line = [self.keyword("EVAL"), cased(self.chance, self.task(resource)), str(elapsed), *inputs(self.chance)]
        yield self.chance.choice([" ", " ", " ", "  ", "\t"]).join(line)
        if self.chance.random() < 0.4:
            yield from (f"DELIVER {self.made} {it}" for it in self.plant.resources if self.chance.random() < 0.8)

    def delivery(self):
        """Mostly of one of the last messages; of an old one, or of one that isn't made yet, now and then."""
        near = max(1, self.made - self.chance.randint(0, 6))
        message = self.chance.choice([near] * 6 + [self.chance.randint(1, self.made + 1)])
        yield f"{self.keyword('DELIVER')} {message} {cased(self.chance, self.resource())}"

    def restart(self):
        """A restart, or two; now and then all hear of it at once, or the resource goes on at once."""
        resource = self.resource()
        for _ in range(self.chance.choice([1, 1, 1, 2])):
            self.incarnations[resource] += 1
            yield f"{self.keyword('RESTART')} {cased(self.chance, resource)}"
        if self.chance.random() < 0.5:
            yield from (f"HEAR {it} {resource} {self.incarnations[resource]}" for it in self.plant.resources if self.chance.random() < 0.8)
        for _ in range(self.chance.choice([0, 1, 2])):
            yield from self.evaluation(resource)

    def hearing(self):
        """Mostly of the present incarnation; of an earlier one, or of one that never was, now and then."""
        of = self.resource()
        present = self.incarnations[of]
        incarnation = self.chance.choice([present] * 6 + [self.chance.randint(0, present + 1)])
        yield f"{self.keyword('HEAR')} {cased(self.chance, self.resource())} {cased(self.chance, of)} {incarnation}"

    def unlawful(self):
        resource = self.resource()
        yield self.chance.choice(
            [f"DELIVER 0 {resource}", "DELIVER 0 R9", f"DELIVER 18446744073709551615 {resource}", "RESTART R9", "EVAL R9.T1 10", f"EVAL {resource}.T9 0 %IX0=1", f"HEAR R9 {resource} 1", f"HEAR {resource} R9 1", f"HEAR {resource} {resource} 0"]
        )

    def empty(self):
        yield self.chance.choice(["", " \t", "# a comment", "\t# EVAL"])

    def expectation(self):
        """Mostly of values that outputs have; now and then a word is none."""
        words = [self.expected() for _ in range(self.chance.choice([1, 1, 2, 3]))]
        if self.chance.random() < 0.03:
            words.insert(self.chance.randint(0, len(words)), self.chance.choice(NO_EXPECTATIONS))
        yield " ".join([self.keyword("EXPECT"), *words])

    def expected(self):
        name, kind = self.chance.choice(list(self.plant.outputs()))
        return f"{cased(self.chance, name)}={self.chance.choice(EXPECTED[kind])}"

    def keyword(self, word):
        return cased(self.chance, word)


NO_EVENTS = ["EVAL R1.T1", "DELIVER R1 1", "RESTART R1 R1", "EVAL R1 10", "EVAL R1.T1 10 %IX0=2", "EVAL R1.T1 10 %IX0=1 %ix00=0", "HEAR", "HEAR R1 R2", "HEAR R1 R2 4294967296", "HEAR R1 R2 1 1", "HEAR R1.T1 R2 1", "RESTART ON", "EXPECT", "x"]

NO_EXPECTATIONS = ["R1", "R1.I0.Q", "R9.I0.Q=1", "R1.I0.Q=", "R1.I0=1", "R1.I0.Q=2", "=1", "R1.I0.Q=T#1ms", "R1.I0.Q=-1", "R1.I0.U1=0", "I0.Q=0"]
EXPECTED = {
    "BOOL": ["0", "1", "0", "1", "01"],
    "INT": ["0", "1", "2", "-1", "007", "32767", "-32768"],
    "TIME": ["T#0ms", "t#10ms", "T#1s", "TIME#0s_5ms", "T#4294967295ms"],
}


def schedule(chance):
    """A plant with a schedule."""
    plant = PlantMaker(chance)
    lines = ScheduleMaker(chance, plant).lines(chance.choice([5, 20, 60]))
    most = ["--max-number", str(chance.choice([0, 1, 2, 3, 5]))] if chance.random() < 0.15 else []
    files = {"it.plant": plant.text(), "it.schedule": "".join(f"{line}\n" for line in lines)}
    traces = trace_words(chance) if chance.random() < 0.3 else []
    return files, [["sim", "it.plant", "it.schedule", *most, *traces]]
