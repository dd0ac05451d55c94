#!/usr/bin/python3
"""plant.py [--port PORT] [--seconds S]: a Modbus TCP server that is the plant of ../packing.plant, with its operator.

  coil 0       the motor: while it is on, the next part comes nearer
  coil 1       the gate: while it is open, a part at the gate falls into the box, and the next one is 300 ms of the belt away
  coil 2, 3    the lamps FULL and JAM
  discrete 0   the button START, pressed where the motor stands and no lamp is on
  discrete 1   the button STOP, pressed for good after S seconds (28)
  discrete 2   the sensor: a part is at the gate
  discrete 3   the button CLEAR, pressed until FULL is off: a new box
  input 0, 1   how many parts have fallen, and how many of them into this box
  holding 0    what the controller has counted in this box

A part that is there while JAM is on for a second the operator drops into the box by hand: it has fallen too.
Not done: parts that collide, a gate that sticks, more than one client's rights.
"""
import argparse
import asyncio
import logging

from pymodbus.datastore import ModbusSequentialDataBlock, ModbusServerContext, ModbusSlaveContext
from pymodbus.server import StartAsyncTcpServer

TICK, APART = 5, 300
COIL, DISCRETE, INPUT = 1, 2, 4  # Their tables, by the function that reads them.


async def work(store, seconds):
    """Lets parts move, and the operator look, each tick."""
    fell, in_box, ahead, stood, jammed = 0, 0, APART, 0, 0
    loop = asyncio.get_running_loop()
    began = loop.time()
    for tick in range(10**9):
        await asyncio.sleep(began + tick * TICK / 1000 - loop.time())
        motor, gate, full, jam = store.getValues(COIL, 0, 4)
        ahead = max(0, ahead - TICK) if motor else ahead
        stood = 0 if motor else stood + TICK
        jammed = jammed + TICK if jam and not ahead else 0
        if ahead == 0 and (gate or jammed > 1000):
            fell, in_box, ahead = fell + 1, in_box + 1, APART
        if full:
            in_box = 0
        is_over = loop.time() - began > seconds
        starts = stood > 500 and not (full or jam or is_over)
        store.setValues(DISCRETE, 0, [starts, is_over, ahead == 0, full])
        store.setValues(INPUT, 0, [fell, in_box])


async def main():
    asked = argparse.ArgumentParser(description=__doc__, formatter_class=argparse.RawDescriptionHelpFormatter)
    asked.add_argument("--port", type=int, default=15020)
    asked.add_argument("--seconds", type=float, default=28)
    asked = asked.parse_args()
    logging.getLogger("pymodbus").setLevel(logging.CRITICAL)
    blocks = {name: ModbusSequentialDataBlock(0, [0] * 8) for name in ("co", "di", "ir", "hr")}
    store = ModbusSlaveContext(**blocks, zero_mode=True)
    words = {"address": ("127.0.0.1", asked.port), "allow_reuse_address": True, "defer_start": True}
    server = await StartAsyncTcpServer(ModbusServerContext(slaves=store), **words)
    await asyncio.gather(server.serve_forever(), work(store, asked.seconds))


asyncio.run(main())
