"""Any number of inputs may be free."""
from inductions import ask, bits, done, rung, write

INPUTS = [f"I{k}" for k in range(60)]



# Each input sets a latch of its own, and the last rungs tell whether one is on that never was set.
text = "".join(rung(f" {it}", f"S{it.replace('I', 'L')}") for it in INPUTS)
text += rung(" I59", "SSEEN") + rung(" L59", "/SEEN", " WRONG") + rung(" L59", "/I59", " LATER")
latches = [it.replace("I", "L") for it in INPUTS]
write("it.ladder", text)
names = bits(*INPUTS, *latches, "SEEN", "WRONG", "LATER")
ask("it.ladder --never WRONG", "HOLDS WRONG", names=names, networks=", 3 of 63 networks")
ask("it.ladder --never LATER", "FAILS LATER 2", names=names, networks=", 2 of 63 networks")
given = ", ".join(f"L{k}" for k in range(1, 60))
claims = " ".join(f"--given L{k}" for k in range(1, 60))
ask(f"it.ladder --never L0 {claims}", "FAILS L0 1", names=names, given=given)
ask(f"it.ladder --never L0 I0=0 {claims}", "HOLDS L0", names=names, given=f"I0=0, {given}", networks=", 60 of 63 networks")
# 21 of which each turns on the same.
several = [f"{it}" for it in INPUTS[:21]]
ask("many_inputs.ladder --never Y", "FAILS Y 1", names=bits(*several, "Y"))
ask(f"many_inputs.ladder --never Y {' '.join(f'{it}=0' for it in several)}", "HOLDS Y", names=bits(*several, "Y"), given=", ".join(f"{it}=0" for it in several))
done()
