"""What ./plc, run/ship and ./check do with the program in dist/: in a small repository, with an rt that proves nothing."""
import os
import shutil
import subprocess
import sys

REPOSITORY = os.path.dirname(os.path.realpath(sys.argv[1]))
ROOT = os.path.realpath("a root")
KIT = "a kit"
CRATES = {"low": "", "console": "low", "plc_main": "console"}
NO_SUM = "0" * 64
# Its program tells the sum that stands in the sources.
RT = """#!/bin/sh
build() {
    mkdir -p "$1/out"
    sum=$(sed -n 's/.*(sources \\(.*\\)).*/\\1/p' "$1/../console/src/version.rt")
    printf '#!/bin/sh\\n[ "$1" = --version ] && echo "plc 0.1.0 (sources %s)" && exit\\necho "ran $*"\\n' "$sum" >"$1/out/plc_main"
    chmod +x "$1/out/plc_main"
}
case $1 in
version) cat "$KIT" ;;
ci) build crates/plc_main; echo "1 passed, 0 failed" ;;
run) build . ;;
lib) mkdir -p out/rlib && touch out/rlib/stamp ;;
esac
"""


def path_of(name):
    return f"{ROOT}/{name}"


def read(name):
    with open(path_of(name), encoding="ascii") as file:
        return file.read()


def write(name, text):
    os.makedirs(os.path.dirname(path_of(name)), exist_ok=True)
    with open(path_of(name), "w", encoding="ascii") as file:
        file.write(text)


def make_root():
    for crate in CRATES:
        write(f"crates/{crate}/src/lib.rt", "one\ntwo\n")
    write("crates/console/src/version.rt", f'const VERSION: &str = "0.1.0 (sources {NO_SUM})";\n')
    write("crates.txt", "".join(f"{it}: {below}\n" for it, below in CRATES.items()))
    write("HANDLES", "Handles allowed: none.\n")
    write("kit/rt", RT)
    os.chmod(path_of("kit/rt"), 0o755)
    write("kit/name", f"{KIT}\n")
    for name in ("plc", "check", "tests/run", "tests/watch.py"):
        os.makedirs(os.path.dirname(path_of(name)), exist_ok=True)
        shutil.copy(f"{REPOSITORY}/{name}", path_of(name))
    shutil.copytree(f"{REPOSITORY}/run", path_of("run"))
    write("tests/eval/plain/words", "eval\na word\n")
    write("tests/eval/plain/stdout", "ran eval a word\n")


def around(with_kit):
    """The environment, with the small repository's kit or with none."""
    found = {**os.environ, "KIT": path_of("kit/name"), "RT_JOBS": "1"}
    found.pop("PLC_BUILD", None)
    without = [it for it in found["PATH"].split(":") if not os.path.exists(f"{it}/rt")]
    found["PATH"] = ":".join([path_of("kit"), *without] if with_kit else without)
    return found


def ran(command, *words, folder=ROOT, with_kit=True):
    """The status, the output and what was told."""
    how = {"stdin": subprocess.DEVNULL, "capture_output": True, "text": True, "timeout": 120}
    it = subprocess.run([command, *words], cwd=folder, env=around(with_kit), check=False, **how)
    return it.returncode, it.stdout, it.stderr


def expect(what, found, wanted):
    if found != wanted:
        print(f"{what}: {found!r} and not {wanted!r}")


def expect_check(what, told, counts="2 passed, 1 failed"):
    """That the gate tells this of dist/, and ends so."""
    status, out, _ = ran("./check")
    lines = out.splitlines()
    expect(f"{what}: what is told of dist", [it for it in lines if it.startswith("dist: ")], [f"dist: {told}"] if told else [])
    expect(f"{what}: the last line", lines[-1], counts)
    expect(f"{what}: the status", status, 0 if counts.endswith(" 0 failed") else 1)


def expect_shipped(what):
    """That dist/ is shipped, and serves without the kit."""
    status, _, told = ran("run/ship")
    expect(f"{what}: ship", (status, [it for it in told.splitlines() if "nothing is shipped" in it]), (0, []))
    expect_check(what, None, "3 passed, 0 failed")
    expect(f"{what}: without the kit", ran("./plc", "eval", with_kit=False), (0, "ran eval\n", ""))


def from_elsewhere():
    """That ./plc runs from another folder, by links, and twice at once at the first call."""
    os.symlink("a root/plc", "first")
    os.symlink("first", "second")
    for command in ("a root/plc", "./first", os.path.realpath("second")):
        os.path.exists(path_of("dist/.looked")) and os.remove(path_of("dist/.looked"))
        expect(f"{command}", ran(command, "eval", folder=".", with_kit=False), (0, "ran eval\n", ""))
    os.remove(path_of("dist/.looked"))
    both = [subprocess.Popen([path_of("plc"), "eval"], env=around(False), stdout=subprocess.PIPE, text=True) for _ in range(2)]
    expect("twice at once", [it.communicate(timeout=60)[0] for it in both], ["ran eval\n"] * 2)
    expect("what is left in dist", sorted(os.listdir(path_of("dist"))), [".looked", "SOURCES", "plc-x86_64-linux"])
    expect("the cases alone", ran("./check", "--cases", with_kit=False)[1].splitlines()[-1:], ["1 passed, 0 failed"])


def main():
    make_root()
    expect_check("no program", "dist/ has no program: run/ship ships it anew")
    expect_shipped("shipped")
    expect("version", ran("./plc", "--version")[1], f"plc 0.1.0 ({read('dist/SOURCES').splitlines()[0]})\n")
    from_elsewhere()

    write("dist/plc-x86_64-linux", read("dist/plc-x86_64-linux").replace("ran", "RAN"))
    expect_check("a byte of the program", "dist/plc-x86_64-linux isn't the program that dist/SOURCES names: run/ship ships it anew")
    expect("a byte of the program: ./plc", ran("./plc", "eval")[1], "ran eval\n")
    expect_shipped("after a byte of the program")

    os.chmod(path_of("dist/plc-x86_64-linux"), 0o644)
    os.remove(path_of("dist/.looked"))
    told = "plc: the program in dist/ doesn't run here, so it is proved and built (it needs x86-64 Linux, glibc 2.34 or later, and the right to be executed)"
    expect("no right to be executed", ran("./plc", "eval")[1:], ("ran eval\n", ""))
    shutil.rmtree(path_of("crates/plc_main/out"))
    expect("nothing built either", ran("./plc", "eval", with_kit=False)[2].splitlines()[:1], [told])
    os.chmod(path_of("dist/plc-x86_64-linux"), 0o755)

    write("crates/low/src/lib.rt", "one\ntwo\nthree\n")
    expect_check("a source", "a source changed, and dist/ has the program of those before: run/ship ships it anew")
    shutil.rmtree(path_of("crates/plc_main/out"))
    status, out, told = ran("./plc", "eval", with_kit=False)
    wanted = "plc: the program in dist/ is that of other sources than these, so it is proved and built"
    expect("a source, without the kit", (status, out, told.splitlines()[:1]), (3, "", [wanted]))
    expect_shipped("after a source")

    lines = read("crates.txt")
    write("crates/unused/src/lib.rt", "one\n")
    write("crates.txt", lines.replace("console:", "unused: low\nconsole:"))
    expect_check("a crate that nothing uses", None, "3 passed, 0 failed")
    write("crates.txt", read("crates.txt").replace("console: low", "console: low unused"))
    expect_check("a crate that the program takes", "a source changed, and dist/ has the program of those before: run/ship ships it anew")
    expect_shipped("after a crate more")
    write("crates.txt", lines)
    shutil.rmtree(path_of("crates/unused"))
    expect_shipped("after a crate less")

    write("dist/SOURCES", read("dist/SOURCES").replace("\nkit", "\n\nkit"))
    expect_check("another text", "dist/SOURCES isn't three lines of sources, kit and program: run/ship ships it anew")
    expect_shipped("after another text")

    os.remove(path_of("dist/SOURCES"))
    expect_check("no text", "dist/ has no program: run/ship ships it anew")
    expect_shipped("after no text")

    sources = read("crates/console/src/version.rt")
    write("crates/console/src/version.rt", sources.replace("sources ", "sources 0")[:-4] + ')";\n')
    expect_check("another sum told", "crates/console/src/version.rt tells another sum over the sources: run/ship ships it anew")
    expect_shipped("after another sum told")

    write("kit/name", "another kit\n")
    told = "another kit built that program, as dist/SOURCES tells, so it isn't compared with the one built here"
    expect_check("another kit", told, "3 passed, 0 failed")


main()
