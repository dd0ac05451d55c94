"""The crates of the program, what each stands on, and how many can be proved at once."""
import os
import re
import sys

ROOT = os.path.dirname(os.path.dirname(os.path.realpath(__file__)))
PROGRAM = "plc_main"
MADE_OF = ("src", "specs", "proofs")


def tell(line):
    print(f"plc: {line}", file=sys.stderr, flush=True)


def checks_at_once():
    """One check a processor, each with 4 GB of memory: most take less, and those that take more come last."""
    with open("/proc/meminfo", encoding="ascii") as file:
        kilobytes = int(re.search(r"MemAvailable:\s+(\d+)", file.read())[1])
    return max(1, min(len(os.sched_getaffinity(0)), kilobytes // 4_000_000))


def around_proofs():
    """The environment of proofs: how many run at once, and that the prover keeps the memory that it frees.

    To give it back and take it anew costs 3 % of a check's time; without, a check holds 6 % more.
    """
    return {"RT_JOBS": str(checks_at_once()), "MIMALLOC_PURGE_DELAY": "-1", **os.environ}


def lines_of_crates():
    """The line of crates.txt for each crate, in its order."""
    with open(f"{ROOT}/crates.txt", encoding="utf-8") as file:
        lines = [line for line in file if ":" in line.partition("#")[0]]
    return {line.partition(":")[0].split()[0]: line for line in lines}


def names_of(line):
    """What a line of crates.txt names: the crates that its own stands on, those of the kit among them."""
    return line.partition("#")[0].partition(":")[2].split()


def listed_crates():
    """The crates of crates.txt, and for each those of them that it names."""
    lines = lines_of_crates()
    return {crate: [it for it in names_of(line) if it in lines] for crate, line in lines.items()}


def crates_of(*asked):
    """These crates and all that they stand on, each with those that it names."""
    listed, needed = listed_crates(), {}
    waiting = list(asked)
    while waiting:
        crate = waiting.pop()
        if crate not in needed:
            needed[crate] = listed[crate]
            waiting += listed[crate]
    return needed


def write_crates_txt(root, crates, more=""):
    """The crates.txt of another root: the lines of these crates, and of one that only that root has."""
    with open(f"{root}/crates.txt", "w", encoding="utf-8") as file:
        file.writelines(line for crate, line in lines_of_crates().items() if crate in crates)
        file.write(more)


def files_of(crate):
    """What a crate is made of."""
    for part in MADE_OF:
        for folder, _, names in os.walk(f"{ROOT}/crates/{crate}/{part}"):
            yield from (f"{folder}/{name}" for name in names)


def lines_of(crate):
    """How many lines a crate has, by which its proof takes longer."""
    count = 0
    for path in files_of(crate):
        with open(path, "rb") as file:
            count += sum(1 for _ in file)
    return count


def is_proved(crate):
    """Whether a crate's library is there, and newer than what it is made of."""
    library = f"{ROOT}/crates/{crate}/out/rlib/stamp"
    if crate == PROGRAM or not os.path.isfile(library):
        return False
    return all(os.path.getmtime(path) <= os.path.getmtime(library) for path in files_of(crate))
