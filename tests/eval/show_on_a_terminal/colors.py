"""What has power is in color on a terminal, unless NO_COLOR is set and isn't empty, and no word asks for it."""
import os
import pty
import subprocess

CASES = [(None, "auto"), ("", "auto"), ("1", "auto"), ("1", "always"), (None, "never")]


def written(no_color, when):
    """What plc writes to a terminal."""
    env = {name: value for name, value in os.environ.items() if name != "NO_COLOR"}
    if no_color is not None:
        env["NO_COLOR"] = no_color
    ours, its = pty.openpty()
    words = [os.environ["PLC"], "eval", "start_stop.ladder", "START=1", "--show", "--color", when]
    with subprocess.Popen(words, env=env, stdin=subprocess.DEVNULL, stdout=its) as program:
        os.close(its)
        read = b""
        while True:
            try:
                more = os.read(ours, 65536)
            except OSError:
                break
            if not more:
                break
            read += more
    os.close(ours)
    return read, program.returncode


for no_color, when in CASES:
    read, status = written(no_color, when)
    print(no_color, when, status, "colored" if b"\x1b" in read else "plain")
