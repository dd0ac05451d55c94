"""The eight standard blocks: their pins, and what a step makes of them."""
from .words import Duration

BOOL, INT, TIME = "BOOL", "INT", "TIME"
# Where counts end.
COUNTS = {"least": -32768, "most": 32767}
TIMER = {"IN": BOOL, "PT": TIME}, {"Q": BOOL, "ET": TIME}
# Of each type its inputs and its outputs.
PINS = {
    "SR": ({"S1": BOOL, "R": BOOL}, {"Q1": BOOL}),
    "RS": ({"S": BOOL, "R1": BOOL}, {"Q1": BOOL}),
    "CTU": ({"CU": BOOL, "R": BOOL, "PV": INT}, {"Q": BOOL, "CV": INT}),
    "CTD": ({"CD": BOOL, "LD": BOOL, "PV": INT}, {"Q": BOOL, "CV": INT}),
    "CTUD": ({"CU": BOOL, "CD": BOOL, "R": BOOL, "LD": BOOL, "PV": INT}, {"QU": BOOL, "QD": BOOL, "CV": INT}),
    "TP": TIMER,
    "TON": TIMER,
    "TOF": TIMER,
}


def inputs_of(block):
    return PINS[block][0]


def outputs_of(block):
    return PINS[block][1]


class Instance:
    """A block with its state: its outputs, and what it remembers of its inputs."""

    def __init__(self, block):
        self.block = block
        self.outputs = {pin: {BOOL: False, INT: 0, TIME: Duration(0)}[kind] for pin, kind in outputs_of(block).items()}
        self.before = {}
        self.is_running = False

    def copied(self):
        copy = Instance(self.block)
        copy.outputs, copy.before, copy.is_running = dict(self.outputs), dict(self.before), self.is_running
        return copy

    def step(self, pins, elapsed):
        getattr(self, f"step_{self.block.lower()}")(pins, elapsed)
        self.before = dict(pins)

    def rises(self, pins, pin):
        return pins[pin] and not self.before.get(pin, False)

    def step_sr(self, pins, _):
        self.outputs["Q1"] = pins["S1"] or (not pins["R"] and self.outputs["Q1"])

    def step_rs(self, pins, _):
        self.outputs["Q1"] = not pins["R1"] and (pins["S"] or self.outputs["Q1"])

    def step_ctu(self, pins, _):
        count = self.outputs["CV"]
        if pins["R"]:
            count = 0
        elif self.rises(pins, "CU"):
            count = min(count + 1, COUNTS["most"])
        self.outputs.update(CV=count, Q=count >= pins["PV"])

    def step_ctd(self, pins, _):
        count = self.outputs["CV"]
        if pins["LD"]:
            count = pins["PV"]
        elif self.rises(pins, "CD"):
            count = max(count - 1, COUNTS["least"])
        self.outputs.update(CV=count, Q=count <= 0)

    def step_ctud(self, pins, _):
        count = self.outputs["CV"]
        up, down = self.rises(pins, "CU"), self.rises(pins, "CD")
        if pins["R"]:
            count = 0
        elif pins["LD"]:
            count = pins["PV"]
        elif up and not down:
            count = min(count + 1, COUNTS["most"])
        elif down and not up:
            count = max(count - 1, COUNTS["least"])
        self.outputs.update(CV=count, QU=count >= pins["PV"], QD=count <= 0)

    def later(self, pins, elapsed):
        """The elapsed time of a timer, up to its preset one."""
        return Duration(min(pins["PT"], self.outputs["ET"] + elapsed))

    def step_ton(self, pins, elapsed):
        time = Duration(0)
        if pins["IN"] and self.before.get("IN", False):
            time = self.later(pins, elapsed)
        self.outputs.update(ET=time, Q=pins["IN"] and time >= pins["PT"])

    def step_tof(self, pins, elapsed):
        if pins["IN"]:
            self.outputs.update(Q=True, ET=Duration(0))
        elif self.before.get("IN", False):
            self.outputs.update(ET=Duration(0), Q=pins["PT"] > 0)
        elif self.outputs["Q"]:
            time = self.later(pins, elapsed)
            self.outputs.update(ET=time, Q=time < pins["PT"])
        else:
            self.outputs["Q"] = False

    def step_tp(self, pins, elapsed):
        time = self.outputs["ET"]
        was_running = self.is_running
        if was_running:
            time = self.later(pins, elapsed)
        elif self.rises(pins, "IN"):
            time, self.is_running = Duration(0), True
        elif not pins["IN"]:
            time = Duration(0)
        if time >= pins["PT"]:
            self.is_running = False
        self.outputs.update(ET=time, Q=self.is_running)
