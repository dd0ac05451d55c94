"""Timers of all types, for the time that is told from scan to scan."""
from inductions import ask, bits, done, write

PRESS = bits("LEFT", "RIGHT", "LATE", "PRESS", "ONE_HAND", "TIED", "TIED_DOWN", "T1:TON", "T2:TON")
LIGHTS = bits(*"NS_GREEN NS_YELLOW EW_GREEN EW_YELLOW NS_DONE CAR CLASH T1:TON T2:TON T3:TON T4:TON".split())


def timer(name, kind, sign, contact, preset, coil):
    """A rung of a timer, of which Q goes to a coil."""
    return f"""|            {name}
|         +-------+
|  {contact:7}|  {kind:5}|  {coil}
+--|{sign}|----|IN    Q|--( )
| {preset:-<8}|PT     |
|         +-------+
"""


def both(one, other, name="WRONG"):
    """A rung that is on where both are; a sign stands before a name."""
    return f"|  {one[1:]:8}{other[1:]:8}{name}\n+--|{one[0]}|-----|{other[0]}|-----( )\n"


def try_two(kind, sign, preset, *wanted, later="TON", source="GO", given="dt 10 ms"):
    """A timer of 30 ms on GO, and one on its output or on GO; both outputs on together."""
    write("it.ladder", timer("T1", kind, " ", "GO", "T#30ms", "Q1") + timer("T2", later, sign, source, preset, "Q2") + both(" Q1", " Q2"))
    ask("it.ladder --never WRONG --dt 10", *wanted, names=bits("GO", "Q1", "Q2", "WRONG", f"T1:{kind}", f"T2:{later}"), given=given)


def try_kinds():
    # ET is 0 in the scan in which GO rises, so Q comes in the fourth one, and sooner with a longer time from scan to scan.
    write("it.ladder", timer("T1", "TON", " ", "GO", "T#30ms", "Q1") + both(" Q1", "/GO"))
    names = bits("GO", "Q1", "WRONG", "T1:TON")
    ask("it.ladder --never Q1 --dt 10", "FAILS Q1 4", names=names, given="dt 10 ms", networks=", 1 of 2 networks")
    ask("it.ladder --never Q1 --dt 40", "FAILS Q1 2", names=names, given="dt 40 ms", networks=", 1 of 2 networks", warned="PresetBetweenScans")
    ask("it.ladder --never WRONG --dt 10", "HOLDS WRONG", names=names, given="dt 10 ms")
    # The time at PT is what a word holds, and else none.
    write("it.ladder", timer("T1", "TON", " ", "GO", "P", "Q1"))
    names = bits("GO", "P:TIME", "Q1", "T1:TON")
    ask("it.ladder --never Q1 --dt 10 P=T#30ms", "FAILS Q1 4", names=names, given="dt 10 ms, P=T#30ms")
    ask("it.ladder --never Q1 --dt 10", "FAILS Q1 1", names=names, given="dt 10 ms, P=T#0ms")
    ask("it.ladder --never Q1 --dt 10 GO=0", "HOLDS Q1", names=names, given="dt 10 ms, GO=0, P=T#0ms")
    # Q of a TOF is on for three scans behind the last one in which GO is on; that of a TP for three in all.
    try_two("TOF", "/", "T#20ms", "FAILS WRONG 4")
    try_two("TOF", "/", "T#30ms", "HOLDS WRONG")
    try_two("TP", " ", "T#20ms", "FAILS WRONG 3", source="Q1")
    try_two("TP", " ", "T#30ms", "HOLDS WRONG", source="Q1")
    # A pulse ends even where GO stays on, and none begins before GO rises again.
    try_two("TP", " ", "T#40ms", "HOLDS WRONG", source="GO")


ask("press.ladder --never ONE_HAND --dt 100", "HOLDS ONE_HAND", names=PRESS, given="dt 100 ms", networks=", 4 of 7 networks")
ask("press.ladder --never TIED_DOWN --never ONE_HAND --dt 100", "HOLDS TIED_DOWN", "HOLDS ONE_HAND", names=PRESS, given="dt 100 ms")
ask("press_bug.ladder --never ONE_HAND --never TIED_DOWN --dt 100", "HOLDS ONE_HAND", "FAILS TIED_DOWN 9", names=PRESS, given="dt 100 ms")
ask("traffic.ladder --never CLASH --dt 500", "HOLDS CLASH", names=LIGHTS, given="dt 500 ms")
ask("traffic_bug.ladder --never CLASH --dt 500", "FAILS CLASH 7", names=LIGHTS, given="dt 500 ms")
ask("traffic_bug.ladder --never CLASH --dt 3000", "FAILS CLASH 2", names=LIGHTS, given="dt 3000 ms", warned="PresetBetweenScans")
try_kinds()
done()
