"""Claims by induction: what the rules give is compared, and what they don't is judged: of FAILS the run, which `plc eval` must make, and of
HOLDS the clauses, which must be of bits that there are."""
import os
import re
import shlex
import subprocess

PLC = os.environ["PLC"]
SECONDS = 120
COUNT, ELAPSED = [f"CV.{k}" for k in range(16)], [f"ET.{k}" for k in range(32)]
BITS = {
    "INT": [str(k) for k in range(16)],
    "TIME": [str(k) for k in range(32)],
    "SR": ["Q1"],
    "RS": ["Q1"],
    "CTU": ["CU", "Q", *COUNT],
    "CTD": ["CD", "Q", *COUNT],
    "CTUD": ["CU", "CD", "QU", "QD", *COUNT],
    **{it: ["IN", "Q", *ELAPSED] for it in ("TON", "TOF", "TP")},
}
told = []


def write(name, text):
    with open(name, "w", encoding="ascii") as file:
        file.write(text)


def bits(*names):
    """The names of bits: NAME is a BOOL or what an edge remembers, NAME:KIND another variable or a block."""
    parts = (it.partition(":") if " at " not in it else (it, "", "") for it in names)
    return [f"{name}.{bit}" if bit else name for name, _, kind in parts for bit in BITS.get(kind, [""])]


def rung(*names):
    """The two lines of contacts and a coil, each with its sign before its name: ` GO`, `/STOP`, `SLATCH`."""
    above = "".join(f"{it[1:]:8}" for it in names).rstrip()
    return f"|  {above}\n+--" + "".join(f"|{it[0]}|-----" for it in names[:-1]) + f"({names[-1][0]})\n"


def plc(words):
    how = {"stdin": subprocess.DEVNULL, "capture_output": True, "text": True, "timeout": SECONDS}
    return subprocess.run([PLC, *words], **how)


def ask(words, *wanted, names, networks="", given="", unmet="", status=None, warned=""):
    """Asks claims with these words. A verdict that is wanted is `HOLDS NAME`, `FAILS NAME` or `FAILS NAME N`, where no run of fewer than N
    scans breaks it; `names` are the bits, `networks` and `given` what is told at the end of a line and as the last one; `unmet` is what no
    run meets."""
    asked = ["verify", *shlex.split(words), "--by", "induction", "--certificate", "why.txt"]
    ran = plc(asked)
    certificates = read("why.txt")
    lines = ran.stdout.splitlines()
    faults = []
    if given:
        faults += [] if lines[-1:] == [f"given {given}"] else [f"no line given {given}"]
        lines = lines[:-1]
    for verdict in wanted:
        kind, name, *least = verdict.split()
        line, *run = taken(lines)
        if not line.startswith(f"{kind} {name} "):
            faults.append(f"no {verdict}")
        elif kind == "HOLDS":
            faults += faults_of_holds(name, line, run, names, networks, unmet, certificates)
        else:
            faults += faults_of_fails(name, line, run, int((least or ["1"])[0]), given)
    faults += lines + certificates
    fails = any(it.startswith("FAILS") for it in wanted)
    status = (4 if fails else 0) if status is None else status
    faults += [] if ran.returncode == status else [f"status {ran.returncode}"]
    faults += [] if warned in ran.stderr and bool(warned) == bool(ran.stderr) else [ran.stderr]
    if faults:
        told.append(f"{words}: {'; '.join(faults)[:500]}\n{ran.stdout[:500]}")


def read(name):
    """The lines of a file, which is removed."""
    if not os.path.exists(name):
        return ["no certificate is written"]
    with open(name, encoding="ascii") as file:
        lines = file.read().splitlines()
    os.remove(name)
    return lines


def taken(lines):
    """The line of a verdict, and those of its run."""
    found = [lines.pop(0)] if lines else ["nothing"]
    while lines and not re.match("(HOLDS|FAILS|UNDECIDED) ", lines[0]):
        found.append(lines.pop(0))
    return found


def faults_of_holds(name, line, run, names, networks, unmet, certificates):
    """Where no run meets what is given this is told in place of how large a certificate is, which is written all the same."""
    head = re.fullmatch(r"(\S+) is never on: (\d+) clauses?", certificates.pop(0) if certificates else "")
    if not head or head[0] != f"{name} is never on: {counted(int(head[2]), 'clause')}":
        return [f"no certificate of {name}"]
    rows, certificates[:] = certificates[: int(head[2])], certificates[int(head[2]) :]
    inner = [re.fullmatch(r"not \((.+)\)", it) for it in rows]
    if len(rows) != int(head[2]) or not all(inner):
        return [f"certificate {rows}"]
    named = {bit.removeprefix("not ") for it in inner for bit in it[1].split(" and ")}
    size = f"by induction, {counted(len(rows), 'clause')} over {len(named)} of {counted(len(names), 'bit')}{networks}"
    wanted = [f"HOLDS {name} is never on: {f'no run meets {unmet}' if unmet else size}"]
    faults = [] if [line, *run] == wanted else [f"not {wanted[0]}", line, *run]
    return faults + [f"{it} is no bit" for it in sorted(named - set(names))]


def counted(count, what):
    return f"{count} {what}" + "s" * (count != 1)


def faults_of_fails(name, line, run, least, given):
    found = re.fullmatch(r"FAILS \S+ is on after (\d+) scans?", line)
    if not found or int(found[1]) < least:
        return [line, f"at least {least} scans"]
    if run and run[0].startswith("plc eval "):
        made = plc(shlex.split(run.pop(0))[1:]).stdout.splitlines()
        if made != run:
            return [f"plc eval makes {made}, not {run}"]
    on = [{it.removesuffix("=1").upper() for it in row.split() if it.endswith("=1")} for row in run]
    faults = [] if len(on) == int(found[1]) and name.upper() in on[-1] else [f"{line}: {run}"]
    known = {it.partition("=")[0].upper() for row in run[:1] for it in row.split()}
    always = [it for it in given.split(", ") if it.upper() in known]
    return faults + [f"{it} isn't always on" for it in always if not all(it.upper() in row for row in on)]


def done():
    print(*told[:9] or ["all as wanted"], sep="\n")
