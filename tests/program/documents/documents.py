"""Runs the commands that the documents show, and compares what they say with the program.

A block of a document with lines that begin with `$ ` shows commands and what they write. `cat FILE` of a file that isn't
there makes it. The comments of an example schedule tell what each event writes. A heading `### Kind` of a guide is a kind
of fault: what stands below it is what `plc explain Kind` tells, and the drawings there are refused for it, or read.
"""
import os
import re
import subprocess
import sys
import tempfile

ROOT = os.path.dirname(os.path.realpath(sys.argv[1]))
GUIDES = {
    "in a drawing": ("DRAWING.md", "Faults of the drawing"),
    "in the networks of a drawing": ("DRAWING.md", "Faults of its networks"),
    "at the names of a drawing": ("DRAWING.md", "Faults of its names"),
    "in a plant": ("PLANT.md", "When a text is refused"),
    "in the plan of a plant": ("PLANT.md", "When tasks are due"),
    "in a schedule": ("SCHEDULE.md", "When the schedule itself is refused"),
    "as a warning of a drawing": ("DRAWING.md", "Warnings"),
    "as a warning of a plant": ("PLANT.md", "Warnings"),
}
KINDS = {
    "in a drawing": "NotAscii TooLarge NoLeftRail BadBox BadMark Crossing NoSource NameMissing StrayName",
    "in the networks of a drawing": "Unattached TooTall InstanceTwice",
    "at the names of a drawing": "UnknownName WrongKind WritesInput UnknownPin PinMissing LiteralOutOfRange",
    "in a plant": "Syntax Drawing Graph Bind NameTwice UnknownName WrongKind InputBoundTwice TooMany",
    "in the plan of a plant": "TooLong",
    "in a schedule": "Syntax",
    "as a warning of a drawing": "DoubleCoil MistypedContact PresetBetweenScans",
    "as a warning of a plant": "NeverRead UnboundInput FarAddress",
}
CONFIGURATION = """
CONFIGURATION C
RESOURCE R ON N
TASK K(INTERVAL := T#10ms, PRIORITY := 1);
PROGRAM I WITH K : P;
END_RESOURCE
END_CONFIGURATION
"""
# Program types and a task for the examples that are parts of a plant.
TYPES = """PROGRAM COUNT
VAR_INPUT UP : BOOL; END_VAR
VAR_OUTPUT Y : BOOL; END_VAR
|  UP     Y
+--| |---( )
END_PROGRAM
PROGRAM PUMP
VAR_INPUT START, STOP, FULL : BOOL; END_VAR
VAR_OUTPUT Y : BOOL; END_VAR
|  START    STOP    FULL     Y
+--| |------|/|------|/|----( )
END_PROGRAM
"""
TASK = "RESOURCE R1 ON NODE\nTASK FAST(INTERVAL := T#10ms, PRIORITY := 1);\n"
# What happens: where its kinds are met, and the table of a guide that tells them.
OCCASIONS = {
    "in a REFUSED line of plc sim": ("SCHEDULE.md", "When an event is refused"),
    "in a FAULT line of plc run": ("RUN.md", "Each cause"),
    "where plc run gives no report": ("RUN.md", "When there is no report"),
    "in a folder of state": ("RUN.md", "A folder of state"),
    "in a REFUSED line of plc node": ("MACHINES.md", "When a line is refused"),
    "in an UNSHOWN line of plc audit": ("MACHINES.md", "What can't be shown"),
}
told = []


def read(*path):
    with open(os.path.join(ROOT, *path), encoding="utf-8") as file:
        return file.read()


def run(command, place):
    how = {"cwd": place, "stdin": subprocess.DEVNULL, "stdout": subprocess.PIPE, "stderr": subprocess.STDOUT}
    return subprocess.run(["sh", "-c", command], text=True, **how)


def commands_of(text):
    """The commands that a text shows, and what each writes."""
    for block in re.findall(r"(?ms)^```\n(.*?)^```$", text):
        shown = re.split(r"(?m)^\$ (.*)\n", block)
        yield from zip(shown[1::2], shown[2::2])


def try_commands(name, place):
    for command, wanted in commands_of(read(name)):
        made = re.fullmatch(r"cat (\S+)", command)
        if made and not os.path.exists(os.path.join(place, made[1])):
            with open(os.path.join(place, made[1]), "w", encoding="ascii") as file:
                file.write(wanted)
            continue
        found = run(command, place).stdout
        if found != wanted:
            told.append(f"{name}: {command}: writes\n{found}and not\n{wanted}")


def try_picture(name, place):
    """A picture of the guides is what their commands left."""
    path = os.path.join(place, name)
    if not os.path.exists(path) or open(path, encoding="utf-8").read() != read("docs", name):
        told.append(f"docs/{name}: it isn't what a command of the documents writes")


def try_schedule(name, place):
    text = read("examples", name)
    wanted = re.findall(r"(?m)^# ((?:EVAL|DELIVER|RESTART|HEAR|REFUSED) .*)", text)
    command = re.search(r"(?m)^#   (\./plc sim .*)$", text)
    if wanted and run(command[1], place).stdout.splitlines() != wanted:
        told.append(f"examples/{name}: its comments aren't what is written")


def section(name, *titles):
    """The text below a heading of a guide, and below one in it."""
    text = read("docs", name)
    for level, title in enumerate(titles, 2):
        marks = "#" * level
        found = re.search(rf"(?ms)^{marks} {re.escape(title)}\n(.*?)(?=^#{{2,{level}}} |\Z)", text)
        text = found[1] if found else ""
    return text


def without_indent(lines):
    return "\n".join(line[2:] for line in lines.split("\n"))


def is_in_words(part):
    """Whether an example is told in words, in parentheses, and not written."""
    return part.startswith("(") and not part.startswith("(*")


def try_kind(where, kind, place):
    explained = run(f"./plc explain {kind}", place).stdout
    heading = "Warned of" if "warning" in where else "Refused"
    form = rf"(?ms)^{kind} {where}:\n([^\n]*)\n\n{heading}:\n\n(.*?)\n\nMended:\n\n(.*?)\n(?=\n[A-Z]|\Z)"
    found = re.search(form, explained)
    name, title = GUIDES[where]
    guide = section(name, title, kind)
    if not found or not guide:
        told.append(f"{kind} {where}: " + ("no such heading in the guide" if found else "plc explain doesn't tell it"))
        return
    for part in (found[1], without_indent(found[2]), without_indent(found[3])):
        part = part[1:-1] if is_in_words(part) else part
        if f"\n{part}\n" not in guide and f"{part}." not in guide:
            told.append(f"{kind} {where}: docs/{name} doesn't say: {part}")
    if not is_in_words(without_indent(found[2])):
        try_example(where, kind, without_indent(found[2]), place, 1)
        try_example(where, kind, without_indent(found[3]), place, 0)


def whole_of(text):
    """The plant that an example is part of; a drawing or a schedule as it is."""
    if text.startswith("RESOURCE"):
        return f"{TYPES}CONFIGURATION C\n{text}\nEND_CONFIGURATION\n"
    if text.startswith("PROGRAM") and " WITH " in text:
        return f"{TYPES}CONFIGURATION C\n{TASK}{text}\nEND_RESOURCE\nEND_CONFIGURATION\n"
    if text.startswith("PROGRAM"):
        body = "" if "END_PROGRAM" in text else "\n+-\nEND_PROGRAM"
        return text + body + CONFIGURATION
    return text


def try_example(where, kind, text, place, status):
    """What stands under Refused is refused with just this kind, or warned of, and what stands under Mended is read."""
    whole = whole_of(text)
    with open(os.path.join(place, "example"), "w", encoding="utf-8") as file:
        file.write(whole)
    command = "check example" if whole != text else "sim examples/pair.plant example" if "schedule" in where else "eval example"
    step = re.match(r"\(\* plc verify (--dt \d+) \*\)", text)
    command = f"verify example {step[1]} --never Y GO=0" if step else command
    command += " --strict >/dev/null" if "warning" in where else ""
    ran = run(f"./plc {command}", place)
    first = ran.stdout.partition("\n")[0]
    inner = r"( \w+)?" if where == "in a plant" else ""
    behind = r"(\w+ )?" if "drawing" in where and "warning" not in where and whole != text else ""
    others = re.findall(r"(?m)^example:[\d:]+ .*$", ran.stdout)[1:] if "warning" in where else []
    if ran.returncode != status or others or (status and not re.fullmatch(rf"example:[\d:]+ {behind}{kind}{inner}", first)):
        told.append(f"{kind} {where}: its example is answered by {ran.returncode} {first}:\n{text}")


def rows_of(name, title):
    """The rows of the table in a section of a guide: a kind, and what is said of it; where it is met is no part of that."""
    lines = re.findall(r"(?m)^(?:\| )?(\S.* \| .*?)(?: \|)?$", section(name, title))
    header, *rows = ([it.replace("`", "") for it in line.split(" | ")] for line in lines)
    for row in rows:
        yield row[0], [cell for at, cell in zip(header[1:], row[1:]) if at != "At"]


def try_occasion(where, name, title, listed, place):
    """Each kind of a table is explained by what its cells say, and each kind that is listed stands in the table."""
    rows = dict(rows_of(name, title))
    for kind in sorted({it for it, at in listed if at == where} ^ set(rows)):
        told.append(f"{kind} {where}: it is told by plc explain or by docs/{name}, and not by both")
    for kind, cells in rows.items():
        explained = run(f"./plc explain {kind}", place).stdout
        found = re.search(rf"(?m)^{kind} {where}:\n(.*)$", explained)
        sentence = found[1].lower() if found else ""
        for cell in cells:
            if cell.lower() not in sentence:
                told.append(f"{kind} {where}: plc explain doesn't say: {cell}")


def listed_kinds(place):
    lines = run("./plc explain", place).stdout.splitlines()
    listed = [tuple(line.split(" ", 1)) for line in lines]
    wanted = {(kind, where) for where, kinds in KINDS.items() for kind in kinds.split()}
    for kind, where in sorted(wanted ^ {it for it in listed if it[1] not in OCCASIONS}):
        told.append(f"{kind} {where}: it is listed by plc explain or told by a guide, and not both")
    return listed


def main():
    listed = sorted(os.listdir(os.path.join(ROOT, "docs")))
    documents = ["README.md", "examples/README.md", *(f"docs/{it}" for it in listed if it.endswith(".md"))]
    with tempfile.TemporaryDirectory() as place:
        for name in ("plc", "examples"):
            os.symlink(os.path.join(ROOT, name), os.path.join(place, name))
        for name in documents:
            try_commands(name, place)
        for name in (it for it in listed if it.endswith(".svg")):
            try_picture(name, place)
        for name in sorted(os.listdir(os.path.join(ROOT, "examples"))):
            if name.endswith(".schedule"):
                try_schedule(name, place)
        for where, kinds in KINDS.items():
            for kind in kinds.split():
                try_kind(where, kind, place)
            name, title = GUIDES[where]
            others = set(re.findall(r"(?m)^### (\w+)$", section(name, title))) - set(kinds.split())
            told.extend(f"docs/{name}: {kind} is no kind of fault {where}" for kind in sorted(others))
        listed = listed_kinds(place)
        for where, (name, title) in OCCASIONS.items():
            try_occasion(where, name, title, listed, place)
    print("\n".join(told) or "the documents agree with the program")


main()
