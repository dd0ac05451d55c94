"""Drawings of latches that depend on one another, with claims that need an induction, or a long run."""
import random

from drawings import line

SET, RESET = "(S)", "(R)"


def rung(*contacts, coils):
    """Contacts, negated behind a slash, and coils, each with its sign."""
    drawn = [(it.lstrip("/"), "|/|" if it.startswith("/") else "| |") for it in contacts]
    return line(*drawn, *coils)


def delay(number, source):
    """A timer that is on once a latch has been for half a second."""
    return "\n".join([
        f"|                T{number}",
        "|            +-------+",
        f"|  {source:10}|  TON  |   Q{number}",
        "+--| |-------|IN    Q|---( )",
        "|   T#500ms--|PT     |",
        "|            +-------+",
    ])


def tangled(pairs, inputs, timers=0, slips=(), seed=1):
    """Two latches for each pair, of which one waits for the other to be off, but for the slips. What sets and resets each of them are
    inputs, timers and latches of others by chance. Behind them a claim for each pair: four rungs and one."""
    chance = random.Random(f"{pairs} {inputs} {timers} {seed}")
    latches = [f"{side}{k}" for k in range(pairs) for side in "AB"]
    names = [*latches, *(f"I{k}" for k in range(inputs)), *(f"Q{k}" for k in range(timers))]
    read = lambda: chance.choice(["", "", "/"]) + chance.choice(names)
    made = [delay(k, chance.choice(latches)) for k in range(timers)]
    for k in range(pairs):
        for one, other in ((f"A{k}", f"B{k}"), (f"B{k}", f"A{k}")):
            waits = [] if k in slips and one < other else [f"/{other}"]
            made.append(rung(f"I{chance.randrange(inputs)}", read(), *waits, coils=[(one, SET)]))
            made.append(rung(read(), read(), coils=[(one, RESET)]))
    made += [rung(f"A{k}", f"B{k}", coils=[(f"CLASH{k}", "( )")]) for k in range(pairs)]
    return "\n".join(made) + "\n"


def many(fours, inputs, timers, slips=(), seed=1):
    """Four latches in each two rungs: what sets A and C resets B and D, and the other way round, but that of the slips A isn't reset.
    Contacts are inputs, timers and latches of others by chance. Behind them claims that A and B are on together, for each tenth."""
    chance = random.Random(f"{fours} {inputs} {timers} {seed}")
    latches = [f"{side}{k}" for k in range(fours) for side in "ABCD"]
    names = [*latches, *(f"I{k}" for k in range(inputs)), *(f"Q{k}" for k in range(timers))]
    read = lambda: chance.choice(["", "", "/"]) + chance.choice(names)
    made = [delay(k, chance.choice(latches)) for k in range(timers)]
    for k in range(fours):
        for on, off in (("AC", "BD"), ("BD", "AC")):
            coils = [(f"{it}{k}", sign) for pair in zip(on, off) for it, sign in zip(pair, (SET, RESET))]
            coils = [it for it in coils if k not in slips or it != (f"A{k}", RESET)]
            made.append(rung(f"I{chance.randrange(inputs)}", read(), read(), coils=coils))
    made += [rung(f"A{k}", f"B{k}", coils=[(f"CLASH{k}", "( )")]) for k in range(0, fours, 10)]
    return "\n".join(made) + "\n"


def ring(steps):
    """One of so many steps is on once it began, and NEXT goes on to the next one; that two of them that lie opposite are on together,
    and that the last one is. The last one is looked at first, so that no step is passed in a scan."""
    last = f"S{steps - 1}"
    made = [rung(last, coils=[("ENDS", "( )")])]
    made += [rung(f"S{k}", "NEXT", coils=[(f"S{k + 1}", SET), (f"S{k}", RESET)]) for k in reversed(range(steps - 1))]
    made.append(rung("ENDS", "NEXT", coils=[("S0", SET), (last, RESET)]))
    made.append(rung("/BEGUN", coils=[("S0", SET), ("BEGUN", SET)]))
    made.append(rung("S0", f"S{steps // 2}", coils=[("TWO", "( )")]))
    made.append(rung(last, coils=[("LAST", "( )")]))
    return "\n".join(made) + "\n"


def chain(latches):
    """Each latch comes on by the one before, and the first one by GO or the last one; each is read before it is stored, so that a scan
    brings the next one on. The claim is that the last one is on though GO never was."""
    names = [f"L{k}" for k in range(latches)]
    made = [rung(names[k - 1], f"I{k % 3}", coils=[(names[k], SET)]) for k in reversed(range(1, latches))]
    made += [rung(it, coils=[("L0", SET)]) for it in ("GO", names[-1])]
    made.append(rung("GO", coils=[("SEEN", SET)]))
    made.append(rung(names[-1], "/SEEN", coils=[("EARLY", "( )")]))
    return "\n".join(made) + "\n"
