"""A list of records, taken from the front; one that is not as expected is a Misfit."""


class Misfit(Exception):
    pass


class Records:
    """Records (tag, element, value, second, place) of one frame. `element` is the number that the next ones must carry."""

    def __init__(self, records, frame):
        self.records = records
        self.frame = frame
        self.at = 0
        self.element = 0

    def next_is(self, *tags):
        return self.at < len(self.records) and self.records[self.at][0] in tags

    def take(self, tag):
        """The value and the second number of the next record, which must have this tag."""
        if not self.next_is(tag):
            raise Misfit(f"record {self.at + 1}: tag {tag} expected")
        _, element, value, second, _ = self.records[self.at]
        if element != self.element:
            raise Misfit(f"record {self.at + 1}: element {element}, not {self.element}")
        if not (0 <= value < 2**64 and 0 <= second < 2**64):
            raise Misfit(f"record {self.at + 1}: not words")
        self.at += 1
        return value, second

    def end(self):
        if self.at != len(self.records):
            raise Misfit(f"record {self.at + 1}: too many, tag {self.records[self.at][0]}")

    def word(self, tag):
        """A word as it is."""
        value, second = self.take(tag)
        if second != 0:
            raise Misfit(f"record {self.at}: second number {second}")
        return value

    def number(self, tag):
        """A number; from 2^63 on the word is one below zero."""
        value = self.word(tag)
        return value - 2**64 if value >= 2**63 else value

    def fixed(self, tag, wanted):
        """A record that can only have this value."""
        if self.number(tag) != wanted:
            raise Misfit(f"record {self.at}: not {wanted}")

    def said(self, tag, second):
        """Whether the next record has this tag and says `(extended)`, or `absent`: value 0 and this second number."""
        if self.next_is(tag) and self.records[self.at][3] == second:
            if self.take(tag)[0] != 0:
                raise Misfit(f"record {self.at}: value not 0")
            return True
        return False

    def text(self, tag):
        """A text: eight characters a record, the first in the highest octet, missing ones zero; second its whole length."""
        value, length = self.take(tag)
        octets = value.to_bytes(8, "big")
        while len(octets) < length:
            value, again = self.take(tag)
            if again != length:
                raise Misfit(f"record {self.at}: length {again}, not {length}")
            octets += value.to_bytes(8, "big")
        if not len(octets) - 8 < length or any(octets[length:]):
            raise Misfit(f"record {self.at}: a text of {length} does not end so")
        return octets[:length].decode("latin-1")

    def span(self, tag):
        """A span as the Rust shows it: its octets in hexadecimal, the last one filled with zero bits."""
        first, count = self.take(tag)
        if count == 0 or first + count > len(self.frame) * 8:
            raise Misfit(f"record {self.at}: no such span")
        behind = len(self.frame) * 8 - first - count
        bits = (int.from_bytes(self.frame, "big") >> behind) & ((1 << count) - 1)
        octets = (count + 7) // 8
        return f"{bits << (octets * 8 - count):0{octets * 2}x}"
