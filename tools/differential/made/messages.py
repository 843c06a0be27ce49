"""Messages of every kind as cases."""

import random
from dataclasses import dataclass, replace

from . import cpdlc, others
from .bits import Maker

def enough(frame):
    """Words for the records of a frame: nearly every record takes a bit or more, and no frame has more than 16,384 records."""
    return 4 * min(len(frame) * 8 + 32, 16384)


@dataclass(frozen=True)
class Case:
    entry: str
    direction: str
    down: bytes
    up: bytes
    frame: bytes
    room: int = -1

    def line(self):
        down, up, frame = (octets.hex() or "-" for octets in (self.down, self.up, self.frame))
        room = enough(self.frame) if self.room < 0 else self.room
        return f"{self.entry} {self.direction} {down} {up} {frame} {room}"

    def with_frame(self, frame):
        return replace(self, frame=frame)

    def with_room(self, room):
        return replace(self, room=room)


# Entry and direction; the first two, which take tables, more often.
ENTRIES = [("pdus", "0"), ("pdus", "1"), ("apdu", "-"), ("cm", "1"), ("cm", "0"), ("acse", "-")]
WEIGHTS = [5, 5, 4, 2, 2, 2]
WILD = [0.0, 0.0, 0.01, 0.05, 0.2]


def message(seed):
    """A message, good or with chosen faults, with the entry and the tables that it is for."""
    choose = random.Random(seed)
    entry, direction = choose.choices(ENTRIES, WEIGHTS)[0]
    make = Maker(choose.random(), choose.choice(WILD))
    if entry not in ("pdus", "apdu"):
        others.MADE[entry, direction](make)
        return Case(entry, direction, b"", b"", make.frame())
    down, up = cpdlc.table(choose), cpdlc.table(choose)
    uplink = choose.random() < 0.5 if entry == "apdu" else direction == "1"
    cpdlc.pdu(make, uplink, down, up)
    return Case(entry, direction, down, up, make.frame())
