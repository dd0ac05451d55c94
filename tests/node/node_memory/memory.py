"""A node holds as much after many lines as after the first ones."""
import subprocess
import sys
import threading

LINES = ["EVAL R2.SLOW 20", "HELLO R1 1", "x", "# a comment", "RESTART R2"]
# A resident page that the system counts late is no growth.
FIRST, ALL, MOST_KB = 1000, 200_000, 1000


def resident_kb(process):
    with open(f"/proc/{process.pid}/status", encoding="ascii") as file:
        return next(int(line.split()[1]) for line in file if line.startswith("VmRSS"))


def lines_from(begin, end):
    for k in range(begin, end):
        if k % 2:
            yield f"MESSAGE R1.FAST 1.{k} HEARD R1=1 R2=1 GIVES A.N={k % 100} A.FULL=0\n"
        else:
            yield LINES[k // 2 % (5 if k % 1000 == 8 else 4)] + "\n"


def write(process, begin, end):
    for line in lines_from(begin, end):
        process.stdin.write(line)
    process.stdin.flush()


def answers(process, begin, end):
    """Reads the closing line of each line that has one."""
    writer = threading.Thread(target=write, args=(process, begin, end))
    writer.start()
    left = sum(not line.startswith("#") for line in lines_from(begin, end))
    for line in process.stdout:
        left -= not line.startswith("SEND ")
        if not left:
            break
    writer.join()


def main():
    words = [sys.argv[1], "node", "pair.plant", "R2"]
    process = subprocess.Popen(words, stdin=subprocess.PIPE, stdout=subprocess.PIPE, text=True)
    while process.stdout.readline().startswith("SEND "):
        pass
    answers(process, 0, FIRST)
    before = resident_kb(process)
    answers(process, FIRST, ALL)
    after = resident_kb(process)
    print("it holds as much" if after - before <= MOST_KB else f"{before} kB after {FIRST} lines, {after} kB after {ALL}")
    process.stdin.close()
    print(repr(process.stdout.read()), process.wait())


main()
