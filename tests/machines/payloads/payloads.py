"""payloads.py PLC: what a node answers to what its glue hands on of payloads that a broker brings, forged ones among them."""
import os
import signal
import subprocess
import sys

GLUE = os.path.join(os.path.dirname(sys.argv[1]), "examples", "machines", "node.sh")
SECONDS = 60


def main():
    os.mkdir("state")
    env = {**os.environ, "PLC": sys.argv[1], "PATH": os.getcwd() + os.pathsep + os.environ["PATH"]}
    how = {"stdout": subprocess.PIPE, "text": True, "env": env, "start_new_session": True}
    with subprocess.Popen([GLUE, "R2", "1", "0"], **how) as glue:
        signal.signal(signal.SIGALRM, lambda *_: os.killpg(glue.pid, signal.SIGKILL))
        signal.alarm(SECONDS)
        for line in glue.stdout:
            print(line, end="")
            if "R3" in line:
                break
        os.killpg(glue.pid, signal.SIGKILL)


main()
