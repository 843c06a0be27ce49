"""ASN.1 types that know their text, make values, write them as Erlang terms, and tell a value's records by docs/TAGS.md.

A `Draw` makes values from a seed. Near misses come from a wider text of the same types: each range grows to all that its bits hold,
each list of names and each choice too, and each extension gets an addition. `Draw.miss` counts the places where a value can leave
the narrow text; the one whose turn it is does.
"""

import random


def bits_for(count):
    return (count - 1).bit_length()


class Draw:
    def __init__(self, seed, miss=None):
        self.random = random.Random(seed)
        self.miss, self.places = miss, []

    def misses(self, how):
        """Whether this place is the one that leaves the narrow text; called once at each place that can."""
        self.places.append(how)
        return len(self.places) - 1 == self.miss


class Told:
    def __init__(self):
        self.records, self.element = [], 0

    def say(self, tag, value, second=0):
        self.records.append([tag, self.element, value % 2**64, second])

    def text(self, tag, octets):
        for at in range(0, len(octets), 8):
            self.say(tag, int.from_bytes(octets[at : at + 8].ljust(8, b"\0"), "big"), len(octets))


class Number:
    def __init__(self, tag, low, high):
        self.tag, self.low, self.high = tag, low, high
        self.widest = low + (1 << bits_for(high - low + 1)) - 1

    def text(self, wide):
        return f"INTEGER ({self.low}..{self.widest if wide else self.high})"

    def make(self, draw):
        if self.widest > self.high and draw.misses("a number above its range"):
            return draw.random.randint(self.high + 1, self.widest)
        return draw.random.choice([self.low, self.high, draw.random.randint(self.low, self.high)])

    def term(self, value, flip):
        return str(value)

    def tell(self, value, told):
        told.say(self.tag, value)


class Listed(Number):
    """Some numbers of an extensible range."""

    def __init__(self, tag, *numbers):
        super().__init__(tag, min(numbers), max(numbers))
        self.numbers = numbers

    def text(self, wide):
        return f"INTEGER ({' | '.join(map(str, self.numbers))}, ...{', 32..63' if wide else ''})"

    def make(self, draw):
        return 40 if draw.misses("an extended number") else draw.random.choice(self.numbers)


class ExtensibleNumber(Number):
    def text(self, wide):
        return f"INTEGER ({self.low}..{self.high}, ...{', 32..63' if wide else ''})"

    def make(self, draw):
        return 40 if draw.misses("an extended number") else draw.random.randint(self.low, self.high)


class Name:
    def __init__(self, tag, count, extensible=False):
        self.tag, self.count, self.extensible = tag, count, extensible
        self.widest = 1 << bits_for(count)

    def text(self, wide):
        names = [f"n{i}" for i in range(self.widest if wide else self.count)]
        return "ENUMERATED {" + ", ".join(names + ["..."] * self.extensible + ["x0"] * (wide and self.extensible)) + "}"

    def make(self, draw):
        if self.extensible and draw.misses("an extended name"):
            return "x0"
        if self.widest > self.count and draw.misses("a name that is not listed"):
            return draw.random.randrange(self.count, self.widest)
        return draw.random.randrange(self.count)

    def term(self, value, flip):
        return value if value == "x0" else f"n{value}"

    def tell(self, value, told):
        told.say(self.tag, value)


class Null:
    def text(self, wide):
        return "NULL"

    def make(self, draw):
        return None

    def term(self, value, flip):
        return "'NULL'"

    def tell(self, value, told):
        pass


class Text:
    base, alphabet, letters = "IA5String", "", bytes(range(32, 127))

    def __init__(self, tag, low, high):
        self.tag, self.low, self.high = tag, low, high
        self.widest = low + (1 << bits_for(high - low + 1)) - 1

    def text(self, wide):
        return f"{self.base} (SIZE ({self.low}..{self.widest if wide else self.high}){self.alphabet})"

    def make(self, draw):
        size = draw.random.randint(self.low, self.high)
        if self.widest > self.high and draw.misses("a text too long"):
            size = draw.random.randint(self.high + 1, self.widest)
        return bytes(draw.random.choice(self.letters) for _ in range(size))

    def term(self, value, flip):
        return str(list(value))

    def tell(self, value, told):
        told.text(self.tag, value)


class Numeric(Text):
    """A text that is told twice: as the source has it, whose first character is the digit 0, and as it is."""
    base, letters = "NumericString", b" 0123456789"

    def __init__(self, tag, by_x691, low, high):
        super().__init__(tag, low, high)
        self.by_x691 = by_x691

    def tell(self, value, told):
        told.text(self.tag, bytes(ord("0") + self.letters.index(character) for character in value))
        told.text(self.by_x691, value)


class Bits:
    """A string that is told as a span: the value of its record is the place of the string, which is put in later."""

    def __init__(self, tag, text, sizes):
        self.tag, self.asn, self.sizes = tag, text, sizes

    def text(self, wide):
        return self.asn

    def make(self, draw):
        size = draw.random.choice(self.sizes)
        return size, draw.random.getrandbits(size) if size else 0

    def term(self, value, flip):
        size, number = value
        if flip is not None:
            flip.append(value)
            if flip[0] == len(flip) - 2:
                number ^= (1 << size) - 1
        return f"<<{number}:{size}>>"

    def tell(self, value, told):
        if value[0]:
            told.say(self.tag, Place(value), value[0])


class Place:
    def __init__(self, value):
        self.value = value

    def __mod__(self, other):
        return self


class Sequence:
    """Members are (type, how): how is True for a required one, False for OPTIONAL, or a default."""

    def __init__(self, *members, extensible=False, before=None):
        self.members, self.extensible, self.before = members, extensible, before

    def text(self, wide):
        parts = []
        for i, (member, how) in enumerate(self.members):
            tail = "" if how is True else " OPTIONAL" if how is False else f" DEFAULT n{how}"
            parts.append(f"m{i} {member.text(wide)}{tail}")
        return "SEQUENCE {" + ", ".join(parts + ["..."] * self.extensible + ["x0 NULL OPTIONAL"] * (wide and self.extensible)) + "}"

    def make(self, draw):
        value = {}
        if self.extensible and draw.misses("an extended sequence"):
            value["x0"] = None
        for i, (member, how) in enumerate(self.members):
            if how is True or (not isinstance(member, Absent) and draw.random.random() < 0.5):
                value[i] = member.make(draw)
        return value

    def term(self, value, flip):
        parts = [f"m{i} => {self.members[i][0].term(v, flip)}" for i, v in value.items() if i != "x0"]
        return "#{" + ", ".join(parts + ["x0 => 'NULL'"] * ("x0" in value)) + "}"

    def tell(self, value, told):
        if self.before is not None:
            told.say(self.before, 0)
        for i, (member, how) in enumerate(self.members):
            if i in value:
                member.tell(value[i], told)
            elif not isinstance(how, bool):
                told.say(member.tag, how)
            elif hasattr(member, "absent"):
                member.absent(told)


class Absent(Null):
    """A part that 01 does not read or supply: no value has it, so its type does not matter."""


class Choice:
    def __init__(self, tag, *alternatives, extensible=False):
        self.tag, self.alternatives, self.extensible = tag, alternatives, extensible
        self.widest = 1 << bits_for(len(alternatives))
        self.good = [i for i, one in enumerate(alternatives) if not isinstance(one, Absent)]

    def text(self, wide):
        alternatives = list(self.alternatives)
        if wide:
            alternatives += [Null()] * (self.widest - len(alternatives))
        parts = [f"c{i} {one.text(wide)}" for i, one in enumerate(alternatives)]
        return "CHOICE {" + ", ".join(parts + ["..."] * self.extensible + ["x0 NULL"] * (wide and self.extensible)) + "}"

    def make(self, draw):
        if self.extensible and draw.misses("an extended choice"):
            return "x0", None
        if self.widest > len(self.alternatives) and draw.misses("a choice that is not listed"):
            return draw.random.randrange(len(self.alternatives), self.widest), None
        index = draw.random.choice(self.good)
        return index, self.alternatives[index].make(draw)

    def term(self, value, flip):
        index, inside = value
        if index == "x0" or index >= len(self.alternatives):
            return ("{x0" if index == "x0" else f"{{c{index}") + ", 'NULL'}"
        return f"{{c{index}, {self.alternatives[index].term(inside, flip)}}}"

    def tell(self, value, told):
        index, inside = value
        told.say(self.tag, index)
        self.alternatives[index].tell(inside, told)


class Many:
    """A list; `place` is the tag of each member's place, or None."""

    def __init__(self, low, high, member, place=None, elements=False, most=4):
        self.low, self.high, self.member, self.place, self.elements, self.most = low, high, member, place, elements, most
        self.widest = low + (1 << bits_for(high - low + 1)) - 1

    def text(self, wide):
        return f"SEQUENCE (SIZE ({self.low}..{self.widest if wide else self.high})) OF {self.member.text(wide)}"

    def make(self, draw):
        count = draw.random.randint(self.low, min(self.high, max(self.low, self.most)))
        if self.widest > self.high and draw.misses("a list too long"):
            count = draw.random.randint(self.high + 1, self.widest)
        return [self.member.make(draw) for _ in range(count)]

    def term(self, value, flip):
        return "[" + ", ".join(self.member.term(one, flip) for one in value) + "]"

    def tell(self, value, told):
        for i, one in enumerate(value, 1):
            if self.place is not None:
                told.say(self.place, i)
            if self.elements:
                told.element = i
            self.member.tell(one, told)
        if self.elements:
            told.element = 0


class Inner:
    """A BIT STRING that holds a message of a type by itself; the tool writes that message first."""

    def __init__(self, name, inside, without=None):
        self.name, self.inside, self.without = name, inside, without

    def text(self, wide):
        return "BIT STRING"

    def make(self, draw):
        return draw.misses("bits left in an inner string"), self.inside.make(draw)

    def term(self, value, flip):
        more, inside = value
        return f"inner(M, '{self.name}', {self.inside.term(inside, flip)}, <<0:{int(more)}>>)"

    def tell(self, value, told):
        self.inside.tell(value[1], told)

    def absent(self, told):
        if self.without is not None:
            told.say(self.without, 1)
