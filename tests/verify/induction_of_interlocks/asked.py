"""Of LIFT and LOWER, with a bug, and with what is known of the inputs."""
from inductions import ask, bits, done

NAMES = bits("UP", "DOWN", "STOP", "LIFT", "LOWER", "CLASH")
LEVER = bits("UP", "DOWN", "STOP", "LIFT", "LOWER", "CLASH", "ONE")
ask("hoist.ladder --never CLASH", "HOLDS CLASH", names=NAMES)
ask("hoist.ladder --never clash --dt 10", "HOLDS clash", names=NAMES, given="dt 10 ms")
ask("hoist.ladder --never LIFT", "FAILS LIFT", names=NAMES)
ask("hoist.ladder --never LIFT UP=0", "HOLDS LIFT", names=NAMES, given="UP=0", networks=", 1 of 3 networks")
ask("hoist.ladder --never LIFT STOP=1 --never LOWER", "HOLDS LIFT", "HOLDS LOWER", names=NAMES, given="STOP=1", networks=", 2 of 3 networks")
# LIFT has to be on before.
ask("hoist_bug.ladder --never CLASH", "FAILS CLASH 2", names=NAMES)
ask("hoist_bug.ladder --never CLASH --restarts", "FAILS CLASH 2", names=NAMES, given="restarts before any scan")
ask("hoist_bug.ladder --never CLASH UP=0", "HOLDS CLASH", names=NAMES, given="UP=0")
# UP and DOWN together.
ask("hoist_lever.ladder --never CLASH", "FAILS CLASH 1", names=LEVER, networks=", 3 of 4 networks")
ask("hoist_lever.ladder --never CLASH --given ONE", "HOLDS CLASH", names=LEVER, given="ONE")
ask("hoist_lever.ladder --never LIFT --given ONE", "FAILS LIFT", names=LEVER, given="ONE", networks=", 2 of 4 networks")
# No run meets ONE and CLASH.
ask("hoist_lever.ladder --never CLASH --never LIFT --given ONE --given clash", "HOLDS CLASH", "HOLDS LIFT", names=LEVER, given="ONE, CLASH", unmet="ONE, CLASH")
ask("hoist_lever.ladder --never LIFT --given CLASH STOP=1", "HOLDS LIFT", names=LEVER, given="STOP=1, CLASH", unmet="CLASH", networks=", 3 of 4 networks")
done()
