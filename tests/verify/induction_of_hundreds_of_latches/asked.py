"""400 latches of which each depends on the one before, and the first one on the last one: more states than are in reach one by one."""
from inductions import ask, bits, done, plc, rung, told, write


def ring(latches, inputs, order):
    """What a latch comes on by; each third one is also put back. SEEN stays, and a latch is on only after GO was."""
    names = [f"L{number:03}" for number in range(latches)]
    begins = [rung(" GO", f"S{names[0]}"), rung(f" {names[-1]}", f"S{names[0]}")]
    goes_on = [rung(f" {names[k - 1]}", f" I{k % inputs}", f"S{names[k]}") for k in range(1, latches)]
    back = [rung(" CLEAR", f"/I{k % inputs}", f"R{names[k]}") for k in range(0, latches, 3)]
    write("ring.ladder", "".join([*begins, *goes_on[::order], *back, rung(" GO", "SSEEN"), rung(f" {names[-1]}", "/SEEN", " EARLY")]))
    return bits("GO", "CLEAR", *(f"I{k}" for k in range(inputs)), *names, "SEEN", "EARLY")


def try_states(status, wanted):
    """State by state."""
    ran = plc(["verify", "ring.ladder", "--never", "EARLY", "--most-states", "500"])
    if ran.returncode != status or not (ran.stdout + ran.stderr).startswith(wanted):
        told.append(f"by states: {ran}")


names = ring(400, 5, 1)
ask("ring.ladder --never EARLY", "HOLDS EARLY", names=names)
ask("ring.ladder --never EARLY --never SEEN", "HOLDS EARLY", "FAILS SEEN 1", names=names)
try_states(5, "UNDECIDED EARLY is not on within ")
names = ring(400, 25, 1)
ask("ring.ladder --never EARLY", "HOLDS EARLY", names=names)
try_states(2, "plc: 27 inputs are free, and at most 20 may be")
# Where each latch is read before it is stored, a scan brings the next one on, and the first two at once.
names = ring(100, 3, -1)
ask("ring.ladder --never EARLY", "HOLDS EARLY", names=names)
ask("ring.ladder --never L099", "FAILS L099 99", names=names, networks=", 135 of 137 networks")
done()
