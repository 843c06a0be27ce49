"""Long frames: fragmented lengths, long strings, full routes, and the limit of 65,536 bytes."""

from . import cpdlc
from .bits import Maker
from .messages import Case

LENGTHS = [127, 128, 129, 16382, 16383, 16384, 16385, 32767, 32768, 49152, 65000, 65460]


def integrity(make, down, up):
    """An empty send with a long integrity part."""
    make.raw(0b011000, 6)
    count = make.random.choice(LENGTHS) + make.random.randint(-1, 1)
    make.length(count)
    make.noise(max(0, min(count, 65500)))


def inner(make, down, up):
    """A send whose inner string is filled up to a length with bits that are left."""
    make.raw(0b011001, 6)

    def write():
        cpdlc.message(make, down)
        make.noise(max(0, make.random.choice(LENGTHS[:-2]) - sum(map(len, make.bits))))

    make.inner(write)
    cpdlc.bit_string(make)


def algorithm(make, down, up):
    """Long algorithm octets, whose number is a length in octets."""
    make.raw(0b011011, 6)
    count = make.random.choice([127, 128, 129, 2047, 2048, 4000, 8000])
    make.length(count)
    make.noise(count * 8)
    make.inner(lambda: cpdlc.message(make, down))
    cpdlc.bit_string(make)


def small_number(make, down, up):
    """An extension index of many octets."""
    make.raw(0b11, 2)
    count = make.random.choice([8, 9, 127, 128, 2048, 8100])
    make.length(count)
    make.noise(count * 8)


def full_route(make, down, up):
    """Two clearances of 128 legs."""
    make.raw(0b011001, 6)

    def write():
        make.raw(0, 2)
        make.number(0, 63)
        cpdlc.date_time(make)
        make.raw(1, 1)
        make.raw(0, 3)
        make.raw(0, cpdlc.width(len(down) - 1))
        make.raw(0b011, 3)
        for _ in range(2):
            make.raw(0b000000010, 9)
            make.raw(127, 7)
            for _ in range(128):
                cpdlc.leg(make)

    make.inner(write)
    cpdlc.bit_string(make)


def fragments(make, down, up):
    """Many lengths in a row, as long as the frame."""
    make.raw(0b011000, 6)
    for _ in range(make.random.choice([1, 2, 3, 100, 8189, 8190, 8191])):
        make.raw(0b11, 2)
        make.raw(make.random.randint(1, 4), 6)
    make.noise(make.random.randint(0, 12))


KINDS = [integrity, inner, algorithm, small_number, full_route, fragments]


def long_frame(seed):
    make = Maker(seed)
    make.wild = make.random.choice([0.0, 0.0, 0.001])
    down, up = bytes([0, make.random.randint(0, 17)]), b"\0"
    make.random.choice(KINDS)(make, down, up)
    frame = make.frame()
    if make.chance(0.3):
        frame = frame[: make.random.randint(0, len(frame))]
    if make.chance(0.2):
        frame += make.random.randbytes(max(0, make.random.choice([65534, 65535, 65536, 65537]) - len(frame)))
    return Case("apdu", "-", down, up, frame) if make.chance(0.2) else Case("pdus", "0", down, up, frame)
