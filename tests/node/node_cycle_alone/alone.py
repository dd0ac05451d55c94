"""A node with a cycle whose task isn't due answers the lines of standard input, refuses an EVAL, and goes on behind their end."""
import subprocess
import sys
import time

LINES = ["EVAL R1.K 10", "eval", "INPUT %IX0=1", "HELLO R1 1", "RESTART R1"]


def main():
    words = [sys.argv[1], "node", "far.plant", "R1", "--cycle"]
    node = subprocess.Popen(words, stdin=subprocess.PIPE, stdout=subprocess.PIPE, text=True, bufsize=1)
    print(node.stdout.readline(), end="")
    for line in LINES:
        node.stdin.write(f"{line}\n")
        print(node.stdout.readline(), end="")
    node.stdin.close()
    time.sleep(0.5)
    print("it has ended" if node.poll() is not None else "it goes on")
    node.terminate()
    print(node.stdout.read(), end="")
    node.wait()


main()
