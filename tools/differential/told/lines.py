"""The lines: a case, and our answer to it."""

from dataclasses import dataclass


def octets(text):
    return b"" if text == "-" else bytes.fromhex(text)


@dataclass
class Case:
    entry: str
    direction: str
    down: bytes
    up: bytes
    frame: bytes
    room: int

    @classmethod
    def of(cls, line):
        entry, direction, down, up, frame, room = line.split()
        return cls(entry, direction, octets(down), octets(up), octets(frame), int(room))

    def refused_before(self):
        """Document 01's refusal 1, 2 or 3, which is given before anything is read; else 0."""
        if len(self.frame) > 65536:
            return 1
        if self.entry in ("apdu", "pdus") and not all(1 <= len(table) <= 256 for table in (self.down, self.up)):
            return 2
        if self.entry in ("pdus", "cm") and self.direction not in ("0", "1"):
            return 3
        return 0


def record_of(text):
    tag, element, value, second, place = text.split(",")
    return int(tag), int(element), int(value), int(second), int(place)


@dataclass
class Answer:
    """`ok whole|cut REACH MARKS COUNT;tag,element,value,second,place;...` or `no NUMBER REACH`, and after it the need for 7, the bits lacked for 4.

    The Rust does not say how many bits were lacked, so that a line made from its answers has no such number.

    Any other line is taken as the end `not an answer`, which agrees with nothing.
    """

    end: str
    reach: int
    marks: int = 0
    count: int = 0
    need: int = 0
    lacked: int = 0
    records: tuple = ()

    @classmethod
    def of(cls, line):
        head, *records = line.split(";")
        words = head.split()
        try:
            if words[:1] == ["no"] and not records and len(words) in {"7": (4,), "4": (3, 4)}.get(words[1], (3,)):
                behind = {{"7": "need", "4": "lacked"}[words[1]]: int(words[3])} if len(words) == 4 else {}
                return cls(words[1], int(words[2]), **behind)
            if words[:1] == ["ok"] and words[1] in ("whole", "cut"):
                taken = [record_of(record) for record in records]
                return cls(words[1], *(int(word) for word in words[2:]), records=taken)
        except (ValueError, TypeError):
            pass
        return cls("not an answer", 0)

    def accepted(self):
        return self.end in ("whole", "cut")
