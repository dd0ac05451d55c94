"""Drawings with names that differ by a letter, a digit or an underscore, and plants."""
from .drawings import Names, drawing
from .plants import PlantMaker

NAMES = (
    "KM1 KM2 KM3 KMB KM_3 Km3 M1 MA M0 STOP ST0P STP STOPP START STRT STRAT START_1 START1 SMART MOTOR MOTER MOTO MOTORS M0TOR MOTOR1 MOTER1"
    " TANK_FILL TANK_FULL LAMPS_ON LAMBS_ON LAMS_ON DOOR_L DOOR_R CLOSE CLOSED READY_A2 READY_AB READY_A3 REEADY_A2 _KM3 K3M"
).split()
NUMBERS = [0, 1, 2, 3, 7, 62, 63, 64, 65, 66, 70, 71, 126, 127, 128, 129, 134, 200, 1000, 65535]
FLAGS = ([], [], ["--strict"], ["--strict"], ["--no-warnings"], ["--strict", "--no-warnings"])


class FieldPlantMaker(PlantMaker):
    """Plants that read many addresses, of which some lie far from others."""

    def __init__(self, chance):
        super().__init__(chance)
        self.numbers = chance.sample(NUMBERS, chance.randint(1, 6))

    def source(self, kind):
        return self.address(kind) if kind != "TIME" and self.chance.random() < 0.5 else super().source(kind)

    def address(self, kind):
        return f"{'%IX' if kind == 'BOOL' else '%IW'}{self.chance.choice(self.numbers)}"


def warned(chance):
    """Such a drawing, with words for its scans, or a plant, whose warnings are told, a failure or silent."""
    if chance.random() < 0.4:
        return {"it.plant": FieldPlantMaker(chance).text()}, [["check", "it.plant", *chance.choice(FLAGS)]]
    bits = chance.sample(NAMES, chance.randint(3, 8))
    boxes = [(f"T{k}", chance.choice(("TON", "CTU", "SR"))) for k in range(chance.randint(0, 2))]
    reads = {"BOOL": bits, "INT": ["N", "COUNT"], "TIME": ["Z"]}
    stores = {**reads, "BOOL": bits[chance.randint(0, len(bits) - 1) :]}
    files, [words] = drawing(chance, Names(reads, stores, boxes))
    return files, [words + chance.choice(FLAGS)]
