"""Bits put together as unaligned PER has them, with chosen faults.

A maker draws from a seeded generator. `wild` is the chance that a single choice leaves what the schema allows:
a number above its range, a set extension bit, a length in a longer form, bits left in an inner string.
"""

import random


def width(highest):
    return highest.bit_length()


class Maker:
    def __init__(self, seed, wild=0.0):
        self.random = random.Random(seed)
        self.wild = wild
        self.bits = []

    def goes_wild(self):
        return self.random.random() < self.wild

    def chance(self, p):
        return self.random.random() < p

    def any_of(self, *choices):
        return self.random.choice(choices)

    # What is put behind the bits so far.

    def raw(self, value, count):
        if count:
            self.bits.append(f"{value:0{count}b}")

    def noise(self, count):
        if count:
            self.raw(self.random.getrandbits(count), count)

    def flag(self, p=0.5):
        """A presence bit; returns whether it is set."""
        present = self.chance(p)
        self.raw(int(present), 1)
        return present

    def extension(self):
        """An extension bit, set only when wild; returns whether it is set."""
        extended = self.goes_wild()
        self.raw(int(extended), 1)
        return extended

    def number(self, lo, hi):
        """A number of a range, its limits often; returns it."""
        bits = width(hi - lo)
        if self.goes_wild():
            value = self.random.getrandbits(bits) if bits else 0
        elif self.chance(0.2):
            value = self.any_of(0, hi - lo)
        else:
            value = self.random.randint(0, hi - lo)
        self.raw(value, bits)
        return lo + value

    def text(self, lo, hi):
        for _ in range(self.number(lo, hi)):
            self.raw(self.random.randrange(128) if self.chance(0.1) else self.random.choice(b"ABCXYZ0189 "), 7)

    def length(self, n):
        """A length determinant; from 16,384 on all fragments' lengths first, as the Rust reads them."""
        if n >= 16384:
            m = min(n // 16384, 4)
            self.raw(0b11, 2)
            self.raw(m, 6)
            self.length(n - m * 16384)
        elif n >= 128 or (self.goes_wild() and self.chance(0.5)):
            self.raw(0b10, 2)
            self.raw(n, 14)
        elif self.wild and self.chance(self.wild / 4):
            self.raw(0b11, 2)
            self.raw(self.any_of(0, 1, 4, 5, 63), 6)
            self.raw(n, 8)
        else:
            self.raw(n, 8)

    def inner(self, write):
        """A BIT STRING with what `write` puts into it."""
        outside, self.bits = self.bits, []
        write()
        if self.goes_wild():
            self.noise(self.random.randint(1, 9))
        inside = "".join(self.bits)
        if self.goes_wild():
            inside = inside[: self.random.randint(0, len(inside))]
        self.bits = outside
        self.length(len(inside))
        self.bits.append(inside)

    def frame(self):
        """The octets, filled with zero bits."""
        bits = "".join(self.bits)
        bits += "0" * (-len(bits) % 8)
        return int(bits or "0", 2).to_bytes(len(bits) // 8, "big")
