"""A node gives an output and then stands still, and doesn't read its field, whose inputs change at each read: after its silence the
output falls, however many inputs there are. The device is a module in the place of pymodbus, which notes what is written."""
import os
import subprocess
import sys

CLIENT = '''
import random
import time

class Answer:
    def __init__(self, registers):
        self.registers = registers

    def isError(self):
        return False

class ModbusTcpClient:
    def __init__(self, host, port):
        self.params, self.begun = type("Params", (), {})(), time.monotonic()

    def close(self):
        pass

    def read_input_registers(self, first, count, slave):
        return Answer([random.randrange(65536) for _ in range(count)])

    def write_coil(self, number, value, slave):
        with open("written", "a") as file:
            file.write(f"{time.monotonic() - self.begun} {int(value)}\\n")
        return Answer([])
'''
NODE = '''
import os
import time

field = os.open("field", os.O_RDONLY)
print("EVAL 1 R.T 1.1 TAKES - GIVES C.MOTOR=1", flush=True)
time.sleep(4)
'''


def writes(inputs):
    """When the output was on first, when it was off again, and what was written last before the node ended."""
    with open("map", "w", encoding="ascii") as file:
        file.write("device = 192.168.0.10:502\nsilence = 500\ncoil 0 = C.MOTOR\n")
        file.writelines(f"%IW{k} = input {k}\n" for k in range(inputs))
    subprocess.run([sys.executable, sys.argv[1], "map", "field", sys.executable, "node.py"], env={**os.environ, "PYTHONPATH": "."}, capture_output=True, timeout=60, check=False)
    with open("written", encoding="ascii") as file:
        written = [(float(moment), value) for moment, value in map(str.split, file)]
    os.remove("written")
    on = next(moment for moment, value in written if value == "1")
    return on, next(moment for moment, value in written if value == "0" and moment > on)


os.mkdir("pymodbus")
for name, text in (("pymodbus/__init__.py", ""), ("pymodbus/client.py", CLIENT), ("node.py", NODE)):
    with open(name, "w", encoding="ascii") as module:
        module.write(text)
told = []
for count in (2, 400):
    on, off = writes(count)
    # (much later than it should be where the machine has much to do)
    if not 0.3 < off - on < 3:
        told.append(f"with {count} inputs the output is on for {off - on:.1f} s")
print("\n".join(told) or "the outputs fall")
