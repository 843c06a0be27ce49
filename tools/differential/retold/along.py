"""What the Rust read, taken again in its order: records, marks and ends come from these reads.

Every number is one that the Rust read and every span a string that it took, both as `watched` noted them. Where a read would
have passed the end of the frame or of the inner string, the Rust has none, and what was begun ends there.
"""

from contextlib import contextmanager


class Ended(Exception):
    """The next read would pass the end of the frame, or of the inner string."""


class Bad(Exception):
    """The Rust gives the part up for another cause."""


def width(lowest, highest):
    return (highest - lowest).bit_length()


class Along:
    def __init__(self, frame, watched):
        head, strings, numbers = watched.split(";")
        self.frame_bits = self.left = len(frame) * 8
        self.at = 0  # the place of the next bit in the frame, inside an inner bit string too
        self.strings = [tuple(map(int, text.split("+"))) for text in reversed(strings.split())]
        self.numbers = [tuple(map(int, text.split(":"))) for text in reversed(numbers.split())]
        self.marks = {mark for mark in range(1, 8) if int(head.split()[2]) >> (mark - 1) & 1}
        self.records, self.element, self.cut = [], 0, False

    # What was read.

    def take(self, bits):
        """A number of so many bits, the next one that the Rust read."""
        if bits > self.left:
            raise Ended
        if not self.numbers or self.numbers[-1][0] != bits:
            raise SystemExit(f"{bits} bits expected, the Rust read {self.numbers[-1:]}")
        self.left -= bits
        self.at += bits
        return self.numbers.pop()[1]

    def ranged(self, lowest, highest):
        return lowest + (self.take(width(lowest, highest)) if lowest < highest else 0)

    def string(self, bits):
        """A string of the frame's own level; returns its first bit."""
        if bits > self.left:
            raise Ended
        if not self.strings or self.strings[-1] != (self.at, bits):
            raise SystemExit(f"a string of {bits} bits expected, the Rust took {self.strings[-1:]}")
        self.left -= bits
        self.at += bits
        return self.strings.pop()[0]

    def length(self):
        total = 0
        while self.take(1):
            if not self.take(1):
                return total + self.take(14)
            multiplier = self.take(6)
            if not 1 <= multiplier <= 4:
                raise Bad
            total += multiplier * 16384
        return total + self.take(7)

    @contextmanager
    def inner(self, bits):
        """Reads within an inner bit string. Its end is not the frame's."""
        first = self.string(bits)
        outside, self.left = (self.left, self.at), bits
        self.at = first
        try:
            yield
        except Ended:
            raise Bad from None
        finally:
            self.left, self.at = outside

    def done(self):
        """Nothing that the Rust read may be left; returns end and reach."""
        if self.numbers or self.strings:
            raise SystemExit(f"the Rust read more: {self.numbers[::-1]} {self.strings[::-1]}")
        return "cut" if self.cut else "whole", self.frame_bits - self.left

    # What is told of it.

    def say(self, tag, value, second=0, place=None):
        """A record. Its field starts at `place`; one without bits of its own has the place where the reads stand."""
        self.records.append((tag, self.element, value % 2**64, second, self.at if place is None else place))

    def number(self, tag, lowest, highest):
        place = self.at
        value = self.ranged(lowest, highest)
        self.say(tag, value, 0, place)
        return value

    def span(self, tag, bits, place=None):
        """A span; its field starts at its length, if that has bits."""
        place = self.at if place is None else place
        self.say(tag, self.string(bits), bits, place)

    def characters(self, tag, octets, place):
        for at in range(0, len(octets), 8):
            self.say(tag, int.from_bytes(bytes(octets[at : at + 8]).ljust(8, b"\0"), "big"), len(octets), place)

    def text(self, tag, fewest, most):
        place = self.at
        self.characters(tag, [self.take(7) for _ in range(self.ranged(fewest, most))], place)

    def index(self, tag, bits, listed):
        """An index that is read as a number of bits. One outside its list: the part is given up, with 01's mark 1."""
        place = self.at
        value = self.take(bits)
        if value >= listed:
            self.marks.add(1)
            raise Bad
        self.say(tag, value, 0, place)
        return value

    def extended(self, tag):
        """An extension bit before an enumeration; set, it is told as 01 has it, with mark 2."""
        if self.take(1):
            self.marks.add(2)
            self.say(tag, 0, 1)
            return True
        return False

    @contextmanager
    def dropped_if_bad(self):
        """What cannot be read takes its records with it; its marks stay."""
        before = len(self.records)
        try:
            yield
        except (Ended, Bad):
            del self.records[before:]
            raise
