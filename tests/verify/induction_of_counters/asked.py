"""Counters of all types, with numbers that are told, held or stored."""
from inductions import ask, bits, done, rung, write


def counter(name, kind, pins, preset, outputs):
    """A rung of a counter: by its pin a contact, and by its output a coil or the name of a number."""
    rows = [f"|            {name}", "|         +--------+"]
    rights = [(pin, f"|  {coil}", "--( )") if pin.startswith("Q") else (pin, "", f"--{coil}") for pin, coil in outputs]
    lefts = [(f"|  {contact[1:]:7}", f"+--|{contact[0]}|----", pin) for pin, contact in pins] + [("|         ", f"|{preset:>7}--", "PV")]
    for k, (above, line, pin) in enumerate(lefts):
        right, over, out = rights[k] if k < len(rights) else ("", "", "")
        rows.append(f"{above}|{kind if not k else '':^8}" + (over or "|"))
        rows.append(f"{line}|{pin:4}{right:>4}|{out}")
    return "\n".join([*rows, "|         +--------+"]) + "\n"


def try_up():
    # CU has to rise for each count.
    up = counter("C", "CTU", [("CU", " UP")], "3", [("Q", "FULL"), ("CV", "N")])
    write("it.ladder", up + rung(" FULL", "/UP", " WRONG"))
    names = bits("UP", "FULL", "N:INT", "WRONG", "C:CTU")
    ask("it.ladder --never FULL", "FAILS FULL 5", names=names, networks=", 1 of 2 networks")
    ask("it.ladder --never WRONG", "FAILS WRONG 6", names=names)
    ask("it.ladder --never FULL UP=1", "HOLDS FULL", names=names, networks=", 1 of 2 networks", given="UP=1")
    # It is reset by what it stored in the scan before.
    write("it.ladder", counter("C", "CTU", [("CU", " UP"), ("R", " FULL")], "2", [("Q", "FULL")]) + rung(" FULL", "/SEEN", " FIRST") + rung(" FULL", "SSEEN"))
    names = bits("UP", "FULL", "SEEN", "FIRST", "C:CTU")
    ask("it.ladder --never FULL", "FAILS FULL 3", names=names, networks=", 1 of 3 networks")
    write("it.ladder", counter("C", "CTU", [("CU", " UP")], "K", [("Q", "FULL")]))
    names = bits("UP", "K:INT", "FULL", "C:CTU")
    ask("it.ladder --never FULL K=2", "FAILS FULL 3", names=names, given="K=2")
    ask("it.ladder --never FULL K=-2", "FAILS FULL 1", names=names, given="K=-2")
    ask("it.ladder --never FULL", "FAILS FULL 1", names=names, given="K=0")
    ask("it.ladder --never FULL K=32767 UP=0", "HOLDS FULL", names=names, given="K=32767, UP=0")


def try_down():
    down = counter("C", "CTD", [("CD", " DOWN"), ("LD", " LOAD")], "2", [("Q", "EMPTY")])
    text = down + rung(" LOAD", "SSEEN") + rung("/EMPTY", "/SEEN", " EARLY") + rung(" EMPTY", " SEEN", " AGAIN")
    write("it.ladder", text)
    names = bits("DOWN", "LOAD", "EMPTY", "SEEN", "EARLY", "AGAIN", "C:CTD")
    ask("it.ladder --never EARLY", "HOLDS EARLY", names=names, networks=", 3 of 4 networks")
    ask("it.ladder --never AGAIN", "FAILS AGAIN 4", names=names, networks=", 3 of 4 networks")
    ask("it.ladder --never AGAIN DOWN=0", "HOLDS AGAIN", names=names, networks=", 3 of 4 networks", given="DOWN=0")
    ask("it.ladder --never EMPTY LOAD=1", "HOLDS EMPTY", names=names, networks=", 1 of 4 networks", given="LOAD=1")


def try_both():
    pins = [("CU", " UP"), ("CD", " DOWN"), ("R", " BACK"), ("LD", " LOAD")]
    both = counter("C", "CTUD", pins, "2", [("QU", "MOST"), ("QD", "LEAST"), ("CV", "N")])
    text = both + rung(" MOST", " LEAST", " CLASH") + rung(" UP", "SSEEN") + rung(" LOAD", "SSEEN") + rung("/LEAST", "/SEEN", " EARLY")
    write("it.ladder", text)
    names = bits("UP", "DOWN", "BACK", "LOAD", "MOST", "LEAST", "N:INT", "CLASH", "SEEN", "EARLY", "C:CTUD")
    ask("it.ladder --never CLASH", "HOLDS CLASH", names=names, networks=", 2 of 5 networks")
    ask("it.ladder --never EARLY", "HOLDS EARLY", names=names, networks=", 4 of 5 networks")
    ask("it.ladder --never MOST LOAD=0", "FAILS MOST 3", names=names, networks=", 1 of 5 networks", given="LOAD=0")
    ask("it.ladder --never MOST", "FAILS MOST 1", names=names, networks=", 1 of 5 networks")
    ask("it.ladder --never MOST BACK=1", "HOLDS MOST", names=names, networks=", 1 of 5 networks", given="BACK=1")


try_up()
try_down()
try_both()
done()
