#!/usr/bin/python3
"""modbus.py MAP FIELD COMMAND ..: runs a node (COMMAND), and stands between it and a Modbus TCP device.

MAP is a table, on the left what is set, on the right from what; a line that begins with # is a comment:

  device = 192.168.0.10:502   where the device is
  unit = 1                    its unit (1, if no line tells)
  silence = 1000              outputs are 0 where the node has evaluated nothing for so many ms (1000)
  %IX0 = discrete 0           an input of the resource, from a discrete input or a coil
  %IW2 = input 4              from an input register or a holding register, -32768 to 32767
  coil 3 = C.MOTOR            a coil, from an output of an instance
  holding 7 = T.N             a holding register, from an INT, or a TIME in ms up to 65535

FIELD is the FIFO that the node has by --field. The device is read each 10 ms, and an INPUT tells what changed. Outputs are written
as they change, and all of them each 100 ms; they are 0 before the first EVAL, and written 0 once the node has ended, or this ends.
Where the device doesn't answer for 500 ms, or answers with an error, the field ends, so that the node's inputs are FALSE and 0,
until it answers again; then all is told and written anew. What the node writes is handed on; the status is the node's.

Not done: it doesn't look whether the plant has what MAP names, and sees no pulse between two reads. Where outputs must fall though
this program is killed or the network cut, the device's own watchdog has to do it.
"""
import argparse
import logging
import os
import re
import signal
import subprocess
import sys
import threading
import time

from pymodbus.client import ModbusTcpClient

EVERY, ANEW, MOST_WAIT = 0.01, 0.1, 0.5
READS = {"discrete": "read_discrete_inputs", "coil": "read_coils", "input": "read_input_registers", "holding": "read_holding_registers"}
INPUT = re.compile(r"%I(?:X\d+ = (?:discrete|coil)|W\d+ = (?:input|holding)) \d+")
OUTPUT = re.compile(r"(?:coil|holding) \d+ = \w+\.\w+")


class Device:
    def __init__(self, path):
        """Reads MAP."""
        self.inputs, self.outputs, self.written, self.anew, self.is_there = {}, {}, {}, 0, None
        settings = {"unit": "1", "silence": "1000"}
        with open(path, encoding="ascii") as file:
            lines = [" ".join(line.replace("=", " = ").split()) for line in file]
        for line in (line for line in lines if line and line[0] != "#"):
            left, _, right = line.partition(" = ")
            if INPUT.fullmatch(line):
                kind, number = right.split()
                self.inputs.setdefault(kind, {})[left] = int(number)
            elif OUTPUT.fullmatch(line):
                kind, number = left.split()
                self.outputs[kind, int(number)] = right
            elif left in ("device", "unit", "silence"):
                settings[left] = right
            else:
                sys.exit(f"modbus.py: {path} has a line that says nothing: {line}")
        if "device" not in settings:
            sys.exit(f"modbus.py: {path} names no device")
        host, _, port = settings["device"].rpartition(":")
        self.unit, self.silence = int(settings["unit"]), int(settings["silence"]) / 1000
        self.client = ModbusTcpClient(host, port=int(port))
        self.client.params.timeout = MOST_WAIT  # (the constructor takes whole seconds)

    def ask(self, what, *words):
        answer = getattr(self.client, what)(*words, slave=self.unit)
        if answer.isError():
            raise OSError(str(answer))
        return answer

    def write(self, given):
        """The outputs that aren't written yet."""
        if time.monotonic() >= self.anew:
            self.written, self.anew = {}, time.monotonic() + ANEW
        for (kind, number), name in self.outputs.items():
            value = given.get(name, 0)
            if self.written.get((kind, number)) != value:
                self.ask(*(("write_coil", number, bool(value)) if kind == "coil" else ("write_register", number, value & 0xFFFF)))
                self.written[kind, number] = value

    def read(self):
        """All inputs, by one question for each kind."""
        values = {}
        for kind, places in self.inputs.items():
            first = min(places.values())
            answer = self.ask(READS[kind], first, max(places.values()) - first + 1)
            found = [(it ^ 0x8000) - 0x8000 for it in answer.registers] if kind in ("input", "holding") else answer.bits
            values.update((address, int(found[number - first])) for address, number in places.items())
        return values

    def exchange(self, given):
        """Writes outputs and reads inputs; None where the device doesn't answer."""
        values, why = None, None
        try:
            self.write(given)
            values = self.read()
        except Exception as it:  # Whatever the library makes of what comes over the wire.
            why = repr(it)
            self.forget()
        if self.is_there != (why is None):
            self.is_there = why is None
            print(f"modbus.py: {self.client}", f"is lost: {why}" if why else "answers", file=sys.stderr, flush=True)
        return values

    def forget(self):
        """The next question is on a new connection, and all outputs are written anew."""
        self.written = {}
        self.client.close()


class Field:
    """The FIFO of the node's field, which ends where it is closed."""

    def __init__(self, path):
        self.path, self.file, self.told, self.ahead = path, None, {}, b""
        if not os.path.exists(path):
            os.mkfifo(path)

    def tell(self, values):
        """Tells the inputs that changed. Where no node reads the FIFO, or it is full, nothing is told yet: whoever waited here
        for a node that stands still would let its outputs stand, too."""
        try:
            if self.file is None:
                self.file = os.open(self.path, os.O_WRONLY | os.O_NONBLOCK)
            if not self.ahead:
                news = [f"{address}={value}" for address, value in values.items() if self.told.get(address) != value]
                self.ahead = f"INPUT {' '.join(news)}\n".encode() if news else b""
                self.told = values
            if self.ahead:
                self.ahead = self.ahead[os.write(self.file, self.ahead) :]
        except BlockingIOError:
            pass
        except OSError:
            self.end()

    def end(self):
        if self.file is not None:
            os.close(self.file)
        self.file, self.told, self.ahead = None, {}, b""


class Node:
    """The node, and what it gave last."""

    def __init__(self, words):
        self.process = subprocess.Popen(words, stdout=subprocess.PIPE)
        self.given, self.given_at, self.news = {}, time.monotonic(), threading.Event()
        self.follower = threading.Thread(target=self.follow, daemon=True)
        self.follower.start()

    def follow(self):
        """Hands on what it writes, and keeps what it gives."""
        try:
            for line in self.process.stdout:
                sys.stdout.buffer.write(line)
                sys.stdout.buffer.flush()
                if line.startswith(b"EVAL "):
                    self.keep(re.findall(r"(\S+)=(\S+)", line.decode().partition(" GIVES ")[2]))
        except BrokenPipeError:
            pass

    def keep(self, gives):
        before = dict(self.given)
        self.given.update((name, min(int(re.sub("T#|ms", "", value)), 65535)) for name, value in gives)
        self.given_at = time.monotonic()
        if self.given != before:
            self.news.set()

    def outputs(self, silence):
        """What it gave, if it hasn't been silent for so long."""
        return dict(self.given) if time.monotonic() - self.given_at < silence else {}


def main():
    asked = argparse.ArgumentParser(description=__doc__, formatter_class=argparse.RawDescriptionHelpFormatter, usage=argparse.SUPPRESS)
    for name, count in (("map", None), ("field", None), ("program", None), ("words", "...")):
        asked.add_argument(name, nargs=count, help=argparse.SUPPRESS)
    asked = asked.parse_args()
    logging.getLogger("pymodbus").setLevel(logging.CRITICAL)
    device, field = Device(asked.map), Field(asked.field)
    node = Node([asked.program, *asked.words])
    signal.signal(signal.SIGTERM, lambda *_: node.process.terminate())
    while node.follower.is_alive():
        node.news.clear()
        values = device.exchange(node.outputs(device.silence))
        if values is None:
            field.end()
        else:
            field.tell(values)
        node.news.wait(ANEW if values is None else EVERY)
    node.process.terminate()
    device.forget()
    device.exchange({})
    status = node.process.wait()
    return status if status >= 0 else 128 - status


sys.exit(main())
