"""Plants to be timed."""
import re

from drawings import line, rungs

RESOURCES = 16
TASKS = 16
TYPES = 64
INSTANCES = 64
CONNECTIONS = 4096
INPUTS = 900
OUTPUTS = 100


def body(lines):
    """Lines of 240 columns with as many names as a program type may declare."""
    text = re.sub(r"X(\d{3})", lambda it: f"X{int(it[1]) % INPUTS:03}", rungs(lines))
    return re.sub(r"Y(\d{3})", lambda it: f"Y{int(it[1]) % OUTPUTS:03}", text)


def program(number, drawing):
    inputs = ", ".join(f"X{it:03}" for it in range(INPUTS))
    outputs = ", ".join(f"Y{it:03}" for it in range(OUTPUTS))
    return (
        f"PROGRAM TYPE{number:02}\nVAR_INPUT {inputs} : BOOL; END_VAR\nVAR_OUTPUT {outputs} : BOOL; END_VAR\n"
        f"{drawing}END_PROGRAM\n"
    )


def binds(number):
    """The bound inputs of an instance: every other one takes from another instance, on another resource."""
    other = (number + 1) % INSTANCES
    source = f"RESOURCE{other % RESOURCES:02}.INSTANCE{other:02}"
    some = [f"%IX{it}" if it % 2 else f"{source}.Y{it % OUTPUTS:03}" for it in range(CONNECTIONS // INSTANCES)]
    return ",\n      ".join(f"X{it:03} := {what}" for it, what in enumerate(some))


def resource(number):
    lines = [f"  RESOURCE RESOURCE{number:02} ON NODE"]
    lines += [f"    TASK TASK{it:02}(INTERVAL := T#{10 + it}ms, PRIORITY := {it});" for it in range(TASKS)]
    for it in range(number, INSTANCES, RESOURCES):
        lines.append(f"    PROGRAM INSTANCE{it:02} WITH TASK{it % TASKS:02} : TYPE{it:02}({binds(it)});")
    return "\n".join(lines) + "\n  END_RESOURCE\n"


def largest(lines):
    """A plant of as many parts as there may be, with bodies of so many lines; with 2,000 it is the largest lawful one."""
    drawing = body(lines)
    programs = "".join(program(it, drawing) for it in range(TYPES))
    return programs + "CONFIGURATION LARGEST\n" + "".join(resource(it) for it in range(RESOURCES)) + "END_CONFIGURATION\n"


def frequent(tasks, others):
    """A plant whose first task is due at each moment, and the others only much later."""
    lines = ["CONFIGURATION FREQUENT"]
    left = tasks - 1
    for number in range(RESOURCES):
        lines.append(f"  RESOURCE R{number} ON NODE")
        if number == 0:
            lines.append("    TASK EACH(INTERVAL := T#1ms, PRIORITY := 0);")
        for it in range(min(left, TASKS - (number == 0))):
            lines.append(f"    TASK T{it}(INTERVAL := {others}, PRIORITY := 1);")
            left -= 1
        lines.append("  END_RESOURCE")
    return "\n".join(lines + ["END_CONFIGURATION"]) + "\n"


def ring(count):
    """So many resources of one task, each of which takes from the one before."""
    text = ["PROGRAM NEXT", "VAR_INPUT B, UP : BOOL; END_VAR", "VAR_OUTPUT Q : BOOL; END_VAR"]
    text += ["|  B     Q", "+--|/|-+-( )", "|  UP  |", "+--| |-+", "END_PROGRAM", "CONFIGURATION RING"]
    for number in range(count):
        text.append(f"  RESOURCE R{number} ON NODE")
        text.append("    TASK T(INTERVAL := T#10ms, PRIORITY := 0);")
        text.append(f"    PROGRAM P WITH T : NEXT(B := R{(number - 1) % count}.P.Q, UP := %IX0);")
        text.append("  END_RESOURCE")
    return "\n".join(text + ["END_CONFIGURATION"]) + "\n"


def rung(number):
    """Three contacts and a coil. The first two contacts conduct by turns, so that all coils change where the input does."""
    names = ["A", "B", f"V{number - 1:03}" if number else "A", f"V{number:03}"]
    marks = ["| |", "|/|", "| |", "( )"]
    if number % 2:
        names[0], names[1] = names[1], names[0]
        marks[0], marks[1] = marks[1], marks[0]
    above = "".join(f"  {name:8}" for name in names).rstrip()
    return f"|{above}\n+{'-----'.join('--' + mark for mark in marks)}"


def working(count, rungs, instances=1):
    """So many resources of one task, each with so many programs of so many rungs of three contacts and a coil, due each millisecond."""
    coils = [f"V{it:03}" for it in range(rungs)]
    text = ["PROGRAM WORK", "VAR_INPUT A, B : BOOL; END_VAR", f"VAR_OUTPUT {coils[-1]} : BOOL; END_VAR"]
    text.append(f"VAR {', '.join(coils[:-1])} : BOOL; END_VAR")
    text += ["\n|\n".join(rung(it) for it in range(rungs)), "END_PROGRAM", "CONFIGURATION PLANT"]
    for number in range(count):
        text.append(f"  RESOURCE R{number} ON NODE")
        text.append("    TASK T(INTERVAL := T#1ms, PRIORITY := 0);")
        names = ["P"] if instances == 1 else [f"P{it}" for it in range(instances)]
        text += [f"    PROGRAM {name} WITH T : WORK(A := %IX0, B := %IX1);" for name in names]
        text.append("  END_RESOURCE")
    return "\n".join(text + ["END_CONFIGURATION"]) + "\n"


def asker():
    """Who asks for the zone of `examples/zone.plant`."""
    return [
        "PROGRAM ASKER",
        "VAR_INPUT WANT, PERMIT, THERE : BOOL; END_VAR",
        "VAR_OUTPUT ASK, HERE, INSIDE : BOOL; END_VAR",
        "VAR RETAIN KEPT : BOOL; END_VAR",
        line(("WANT", "| |"), ("PERMIT", "|/|"), ("THERE", "| |"), ("KEPT", "(S)")),
        line(("PERMIT", "| |"), ("WANT", "|/|"), ("KEPT", "(R)")),
        line(("KEPT", "| |"), ("ASK", "( )")),
        line(("HERE", "( )")),
        line(("WANT", "| |"), ("KEPT", "| |"), ("PERMIT", "| |"), ("INSIDE", "( )")),
        "END_PROGRAM",
    ]


def owner(askers):
    """Who owns it, and gives it to one at a time."""
    each = range(1, askers + 1)
    text = ["PROGRAM OWNER", f"VAR_INPUT WANT, {', '.join(f'ASKED{k}, THERE{k}' for k in each)} : BOOL; END_VAR"]
    text += [f"VAR_OUTPUT HERE, INSIDE, {', '.join(f'PERMIT{k}' for k in each)} : BOOL; END_VAR"]
    text += [f"VAR RETAIN {', '.join(f'GIVEN{k}' for k in each)} : BOOL; END_VAR"]
    for k in each:
        free = [("INSIDE", "|/|"), *((f"GIVEN{it}", "|/|") for it in each if it != k)]
        text += [line((f"ASKED{k}", "| |"), *free, (f"GIVEN{k}", "(S)"))]
        text += [line((f"THERE{k}", "| |"), (f"ASKED{k}", "|/|"), (f"GIVEN{k}", "(R)"))]
        text += [line((f"GIVEN{k}", "| |"), (f"PERMIT{k}", "( )"))]
    text += [line(("HERE", "( )"))]
    return text + [line(("WANT", "| |"), *((f"GIVEN{k}", "|/|") for k in each), ("INSIDE", "( )")), "END_PROGRAM"]


def zone(askers):
    """A zone as in `examples/zone.plant`, for which so many robots ask."""
    each = range(1, askers + 1)
    text = [*asker(), *owner(askers), "CONFIGURATION ZONE"]
    for k in each:
        text += [f"  RESOURCE R{k} ON NODE", "    TASK T(INTERVAL := T#10ms, PRIORITY := 1);"]
        text += [f"    PROGRAM A WITH T : ASKER(WANT := %IX0, PERMIT := OWNS.O.PERMIT{k}, THERE := OWNS.O.HERE);", "  END_RESOURCE"]
    asked = ", ".join(f"ASKED{k} := R{k}.A.ASK, THERE{k} := R{k}.A.HERE" for k in each)
    text += ["  RESOURCE OWNS ON NODE", "    TASK T(INTERVAL := T#10ms, PRIORITY := 1);"]
    return "\n".join([*text, f"    PROGRAM O WITH T : OWNER(WANT := %IX0, {asked});", "  END_RESOURCE", "END_CONFIGURATION"]) + "\n"
