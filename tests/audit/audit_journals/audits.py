"""Audits the journals that the tables of this folder have, and compares what is written.

In a table `== ` is a title, `--- NAME` begins a file (a backslash at the end of a line: no line feed there), and `$ ` has the words
of an audit, below which stands what it writes; its status is 0 where nothing stands between the evaluations and the last line, else 3.
Evaluations of several resources may stand in any order in which each of them keeps its own, and so may what can't be shown.
"""
import glob
import os
import subprocess
import sys

PLC = sys.argv[1]
told = []


def write(name, lines):
    with open(name, "w", encoding="ascii") as file:
        file.write("".join(f"{line}\n" for line in lines).replace("\\\n", ""))


def in_order(lines):
    """The evaluations by resource, whose places in the whole count from 1, then the other lines, and the last one."""
    made = [line.split(" ", 2) for line in lines if line.startswith("EVAL ")]
    counted = [place for _, place, _ in made] == [str(k) for k in range(1, len(made) + 1)]
    others = [line for line in lines if not line.startswith("EVAL ")]
    by_resource = sorted((rest for _, _, rest in made), key=lambda rest: rest.partition(".")[0])
    return counted, by_resource, sorted(others[:-1]), others[-1:]


def try_audit(title, words, wanted):
    ran = subprocess.run([PLC, *words.split(" ")], capture_output=True, text=True)
    lines = ran.stdout.splitlines()
    is_whole = all(line.startswith("EVAL ") for line in wanted[:-1])
    if in_order(lines) != in_order(wanted) or ran.returncode != (0 if is_whole else 3):
        told.append(f"{title}: {words}: status {ran.returncode}, {lines}, not {wanted}")


def try_table(text):
    title, count = None, 0
    for block in text.split("\n== ")[1:]:
        title, *lines = block.split("\n")
        parts = []
        for line in lines:
            if line.startswith(("--- ", "$ ")):
                parts.append((line, []))
            elif parts:
                parts[-1][1].append(line)
        for head, rows in parts:
            if head.startswith("--- "):
                write(head[4:], rows)
            else:
                try_audit(title, head[2:], [line for line in rows if line])
                count += 1
        for name in {head[4:] for head, _ in parts if head.startswith("--- ")}:
            os.remove(name)
    return count


def main():
    count = 0
    for name in sorted(glob.glob("*.audits")):
        with open(name, encoding="ascii") as file:
            count += try_table("\n" + file.read())
    print("\n".join(told) or f"{count} audits as they are to be")


main()
