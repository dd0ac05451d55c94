"""What a scan of a ladder does: by walks from the left rail, network after network."""
from . import words
from .binding import kind_of_pin
from .blocks import Instance, inputs_of
from .drawing import Mark, right_of

LIVE = {Mark.WIRE: "=", Mark.JOIN: "#", Mark.UPRIGHT: "#"}


class Ladder:
    """A drawing with its networks and declarations, its names in order."""

    def __init__(self, drawing, networks, declarations):
        self.drawing, self.networks, self.declarations = drawing, networks, declarations

    def scan(self, state, elapsed):
        state.live = set()
        for network in self.networks:
            NetworkScan(self.drawing, network, state, elapsed).run()

    def live_signs(self, state):
        """By its place the sign of each wire, join and upright that had power in the last scan."""
        return {it: LIVE[self.drawing.mark(it)] for it in state.live if self.drawing.mark(it) in LIVE}


def stored_names(drawing):
    """The names at which a coil or an output pin stores."""
    stored = {words.fold(it.name) for it in drawing.symbols if it.is_coil}
    for box in drawing.boxes:
        stored |= {words.fold(pin.operand.text) for pin in box.pins if not pin.is_left and pin.operand}
    return stored


def kept_by_restarts(ladder):
    """The variables that a restart keeps: those at which nothing stores, and of a program type what it retains."""
    stored = stored_names(ladder.drawing)
    return [words.fold(it.name) for it in ladder.declarations if it.role == "Retained" or it.role != "Instance" and words.fold(it.name) not in stored]


class State:
    """The values of variables, the memories of edge contacts and coils by their places, the blocks; names are folded.

    Of the last scan the places that had power are kept.
    """

    def __init__(self, declarations):
        self.values, self.blocks, self.memories, self.live = {}, {}, {}, set()
        for it in declarations:
            if it.role == "Instance":
                self.blocks[words.fold(it.name)] = Instance(it.kind)
            else:
                self.values[words.fold(it.name)] = words.first_value(it.kind)

    def get(self, name):
        """The value at a name; behind a dot stands an output of an instance."""
        first, _, second = words.fold(name).partition(".")
        return self.blocks[first].outputs[second] if second else self.values[first]

    def set(self, name, value):
        self.values[words.fold(name)] = value

    def restarted(self, declarations, kept):
        """The first state, but for the variables that a restart keeps."""
        fresh = State(declarations)
        for name in kept:
            fresh.set(name, self.get(name))
        return fresh


class NetworkScan:
    """One network: all is read as it is at the beginning, and stored at the end."""

    def __init__(self, drawing, network, state, elapsed):
        self.drawing, self.network, self.state, self.elapsed = drawing, network, state, elapsed
        self.stored = []
        self.new_memories = {}
        # The last places of symbols that don't conduct: no walk goes out of them.
        self.closed = {it.places[-1] for it in network.symbols if not self.conducts(it)}

    def run(self):
        live = set()
        inputs = {}
        for box in self.network.boxes:
            inputs[box] = {pin: self.input_value(box, pin) for pin in inputs_of(box.block)}
        for box in sorted(self.network.boxes, key=lambda it: (it.left, it.top)):
            power = self.power(live)
            for pin in box.pins:
                if pin.is_left and not pin.operand and kind_of_pin(box, pin) == "BOOL":
                    inputs[box][words.fold(pin.name)] = pin.place in power
            live.update(self.step(box, inputs[box]))
        power = self.power(live)
        self.state.live |= power
        for coil in sorted(self.network.symbols, key=lambda it: (it.column, it.row)):
            if coil.is_coil:
                self.store(coil, coil.place in power)
        for name, value in self.stored:
            self.state.set(name, value)
        self.state.memories.update(self.new_memories)

    def conducts(self, symbol):
        if symbol.is_coil:
            return True
        value = self.state.get(symbol.name)
        memory = self.state.memories.get(symbol.place, False)
        if symbol.sign in "PN":
            self.new_memories[symbol.place] = value
        return {" ": value, "/": not value, "P": value and not memory, "N": memory and not value}[symbol.sign]

    def input_value(self, box, pin):
        """The value of an input by its operand; without one it is OFF, 0 or no time, and power is looked for later."""
        for drawn in box.pins:
            if drawn.is_left and words.fold(drawn.name) == pin and drawn.operand:
                return self.operand_value(drawn.operand.text)
        return words.first_value(inputs_of(box.block)[pin])

    def operand_value(self, text):
        if words.number_of(text) is not None:
            return words.number_of(text)
        if words.duration_of(text) is not None:
            return words.Duration(words.duration_of(text))
        return self.state.get(text)

    def power(self, live):
        """The places at which some walk ends that begins on the rail or at an output pin that is ON."""
        ahead = [*self.network.heads, *(right_of(it) for it in live if self.drawing.is_fed(right_of(it)))]
        reached = set()
        while ahead:
            place = ahead.pop()
            if place not in reached:
                reached.add(place)
                if place not in self.closed:
                    ahead += self.drawing.onward[place]
        return reached

    def step(self, box, inputs):
        """Steps a block; gives the places of its output pins that are ON."""
        instance = self.state.blocks[words.fold(box.name)]
        instance.step(inputs, self.elapsed)
        outputs = [pin for pin in sorted(box.pins, key=lambda it: it.row) if not pin.is_left]
        for pin in outputs:
            if pin.operand:
                self.stored.append((pin.operand.text, instance.outputs[words.fold(pin.name)]))
        return {pin.place for pin in outputs if instance.outputs[words.fold(pin.name)] is True}

    def store(self, coil, link):
        memory = self.state.memories.get(coil.place, False)
        if coil.sign in "PN":
            self.new_memories[coil.place] = link
        if coil.sign in "SR" and not link:
            return
        value = {" ": link, "/": not link, "S": True, "R": False, "P": link and not memory, "N": memory and not link}
        self.stored.append((coil.name, value[coil.sign]))
