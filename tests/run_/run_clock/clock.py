"""A run by the clock ends no earlier than its last moment, and writes what one whose commands wait for one another writes."""
import subprocess
import sys
import time


def ran(word):
    begun = time.monotonic()
    lines = subprocess.run([sys.argv[1], "run", "loop.plant", "--until", "400", word], stdout=subprocess.PIPE, check=True).stdout
    return lines, time.monotonic() - begun


def main():
    lines, seconds = ran("--clock")
    print("as paced" if lines == ran("--paced")[0] else lines.decode())
    print("in time" if seconds >= 0.4 else f"it took {seconds} s")


main()
