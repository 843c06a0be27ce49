"""Records of an argument from the text that the Rust gives: (tag, value, second number).

Numbers and names come from the text. What the text does not show (which kind of a name, of a level in metres, of a frequency in
MHz, which part was left unread) comes from the reads of the Rust, a list of (bits, number).
"""

import re

from told import tags as tag
from told.cpdlc import UNREAD
from told.values import CLEARANCE_TYPES, ERRORS, FACILITY_FUNCTIONS, SPEED_TYPES, SPEEDS, TRAFFIC_TYPES


def fit(pattern, text):
    found = re.fullmatch(pattern, text, re.DOTALL)
    if not found:
        raise SystemExit(f"{text!r} is not {pattern}")
    return found.groups()


def exact(number, step):
    if number % step:
        raise SystemExit(f"{number} is no multiple of {step}")
    return number // step


def scaled(text):
    """A number with a point, without it."""
    return int(text.replace(".", ""))


def characters(t, text):
    octets = text.encode("latin-1")
    parts = [octets[at : at + 8] for at in range(0, len(octets), 8)]
    return [(t, int.from_bytes(part.ljust(8, b"\0"), "big"), len(octets)) for part in parts]


def speed(text, reads):
    kind = reads[0][1]
    if kind == 6:
        number = scaled(fit(r"M(\d\.\d{3})", text)[0])
    else:
        number = int(fit(re.escape(SPEEDS[kind]).replace(r"\{\}", r"(-?\d+)"), text)[0])
    return [(tag.SPEED, kind, 0), (tag.SPEED_NUMBER, number, 0)]


def level(text, reads):
    kind = reads[0][1]
    number = int(fit([r"(-?\d+) FT", r"(-?\d+) M", r"FL(\d+)", r"(\d+) M"][kind], text)[0])
    return [(tag.LEVEL, kind, 0), (tag.LEVEL_NUMBER, exact(number, [10, 1, 1, 10][kind]), 0)]


def degrees(text, reads):
    number, kind = fit(r"(\d+)°([MT])", text)
    return [(tag.DEGREES, "MT".index(kind), 0), (tag.DEGREES_NUMBER, int(number), 0)]


def by_x691(shown):
    """The Rust's first character is `0`, X.691's the space; the Rust shows the last of X.691's eleven as `:`."""
    if max(shown) > ":":
        return []
    return characters(tag.SATELLITE_CHANNEL_X691, "".join(" 0123456789"[ord(character) - ord("0")] for character in shown))


def frequency(text, reads):
    if text.startswith("SAT "):
        shown = fit("SAT (.{12})", text)[0]
        return [(tag.FREQUENCY, 3, 0)] + characters(tag.SATELLITE_CHANNEL, shown) + by_x691(shown)
    kind = reads[0][1]
    number = fit([r"(\d+) kHz", r"(\d+\.\d{3}) MHz", r"(\d+\.\d{3}) MHz"][kind], text)[0]
    return [(tag.FREQUENCY, kind, 0), (tag.FREQUENCY_NUMBER, exact(scaled(number), [1, 5, 25][kind]), 0)]


def code(text, reads):
    return [(tag.CODE_DIGIT, int(digit), 0) for digit in fit("([0-7])" * 4, text)]


def name(t, names):
    return lambda text, reads: [(t, 0, 1) if text == "(extended)" else (t, names.index(text), 0)]


def procedure(text, reads):
    shown, kind, transition = fit(r"(.*) \((ARRIVAL|APPROACH|DEPARTURE)\)(?: TRANSITION (.*))?", text)
    records = [(tag.PROCEDURE, ["ARRIVAL", "APPROACH", "DEPARTURE"].index(kind), 0)]
    records += characters(tag.PROCEDURE_NAME, shown)
    return records + (characters(tag.PROCEDURE_TRANSITION, transition) if transition else [])


def runway(text, reads):
    direction, side = fit(r"RWY (\d\d+)([LRC]?)", text)
    return [(tag.RUNWAY, int(direction), 0), (tag.RUNWAY_SIDE, ["L", "R", "C", ""].index(side), 0)]


ANGLES = [r"(\d+\.\d{3})°", r"(\d+)°(\d+\.\d\d)'", r"(\d+)°(\d+)'(\d+)\""]


def angle(text, first, sides):
    """An angle's records; `first` is the tag of the form, behind which stand those of the numbers and of the side."""
    form = next(form for form, pattern in enumerate(ANGLES) if re.fullmatch(pattern + ".", text))
    *numbers, side = fit(ANGLES[form] + f"([{sides}])", text)
    tags = [[first + 1], [first + 2, first + 3], [first + 2, first + 4, first + 5]][form]
    records = [(first, form, 0)] + [(t, scaled(number), 0) for t, number in zip(tags, numbers)]
    return records + [(first + 6, sides.index(side), 0)]


def coordinates(text, reads):
    records = [(tag.COORDINATES, 0, 0)]
    for part in text.split():
        north = part[-1] in "NS"
        records += angle(part, tag.LATITUDE if north else tag.LONGITUDE, "NS" if north else "EW")
    return records


def position(text, reads):
    kind = reads[0][1]
    records = [(tag.POSITION, kind, 0)]
    if kind == 3:
        return records + coordinates(text, reads)
    behind = []
    if kind < 2 and reads[1][1]:
        text, where = fit(r"(.*) \((.*)\)", text)
        behind = coordinates(where, reads)
    return records + characters([tag.FIX, tag.NAVAID, tag.AIRPORT][kind], text) + behind


def departure(text, reads):
    head = text.removesuffix(UNREAD)
    flight, limit = fit(r"(.*?) CLEARED TO (.*)", head)
    parts = [reads[0][1], reads[1][1]]
    if any(parts) != (head != text):
        raise SystemExit(f"{text!r}: parts {parts}")
    records = characters(tag.FLIGHT_IDENTIFICATION, flight) + position(limit, reads[3 + len(flight) :])
    return records + [(t, 1, 0) for t, there in zip((tag.FLIGHT_INFORMATION, tag.FURTHER_INSTRUCTIONS), parts) if there]


speed_type = name(tag.SPEED_TYPE, SPEED_TYPES)
READERS = {
    1: position,
    2: speed,
    3: speed_type,
    4: speed_type,
    5: level,
    6: degrees,
    7: frequency,
    8: code,
    9: name(tag.TRAFFIC_TYPE, TRAFFIC_TYPES),
    10: name(tag.CLEARANCE_TYPE, CLEARANCE_TYPES),
    11: name(tag.ERROR_INFORMATION, ERRORS),
    12: name(tag.FACILITY_FUNCTION, FACILITY_FUNCTIONS),
    13: procedure,
    14: runway,
    15: coordinates,
    16: departure,
}


def records(byte, texts, reads):
    """The records of an argument that the Rust gives as these texts: three for the three speed types, else one."""
    return [record for text in texts for record in READERS[byte](text, reads)]
