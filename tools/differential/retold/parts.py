"""Arguments, places and route clearances along the reads of the Rust."""

from told import tags as tag
from told.values import CLEARANCE_TYPES, ERRORS, FACILITY_FUNCTIONS, SPEED_TYPES, TRAFFIC_TYPES

from .along import Bad, Ended

SPEEDS = [(0, 400), (0, 800), (0, 2000), (0, 4000), (-50, 2000), (-100, 4000), (500, 4000)]
LEVELS = [(-60, 7000), (-30, 25000), (30, 700), (100, 2500)]
FREQUENCIES = [(2850, 28000), (23600, 27398), (9000, 15999)]


def angle(reads, first, thousandths, degrees):
    """`first` is the tag of the form, behind which stand those of the numbers and of the side."""
    form = reads.index(first, 2, 3)
    if form == 0:
        reads.number(first + 1, 0, thousandths)
    else:
        reads.number(first + 2, 0, degrees)
        if form == 1:
            reads.number(first + 3, 0, 5999)
        else:
            reads.number(first + 4, 0, 59)
            reads.number(first + 5, 0, 59)
    reads.number(first + 6, 0, 1)


def coordinates(reads):
    reads.say(tag.COORDINATES, 0)
    latitude, longitude = reads.take(1), reads.take(1)
    if latitude:
        angle(reads, tag.LATITUDE, 90000, 89)
    if longitude:
        angle(reads, tag.LONGITUDE, 180000, 179)


def named(reads, name, most):
    behind = reads.take(1)
    reads.text(name, 1, most)
    if behind:
        coordinates(reads)


def position(reads):
    kind = reads.index(tag.POSITION, 3, 4)
    if kind == 0:
        named(reads, tag.FIX, 5)
    elif kind == 1:
        named(reads, tag.NAVAID, 4)
    elif kind == 2:
        reads.text(tag.AIRPORT, 4, 4)
    else:
        coordinates(reads)


def speed(reads):
    reads.number(tag.SPEED_NUMBER, *SPEEDS[reads.index(tag.SPEED, 3, 7)])


def level(reads):
    reads.number(tag.LEVEL_NUMBER, *LEVELS[reads.index(tag.LEVEL, 2, 4)])


def degrees(reads):
    reads.number(tag.DEGREES, 0, 1)
    reads.number(tag.DEGREES_NUMBER, 1, 360)


def frequency(reads):
    kind = reads.index(tag.FREQUENCY, 2, 4)
    if kind < 3:
        reads.number(tag.FREQUENCY_NUMBER, *FREQUENCIES[kind])
        return
    raws, place = [], reads.at
    for _ in range(12):
        raws.append(reads.take(4))
        if raws[-1] > 10:
            reads.marks.add(1)  # by 02's words, d); the Rust shows the next characters
    reads.characters(tag.SATELLITE_CHANNEL, [ord("0") + raw for raw in raws], place)
    if max(raws) <= 10:
        reads.characters(tag.SATELLITE_CHANNEL_X691, [b" 0123456789"[raw] for raw in raws], place)


def code(reads):
    for _ in range(4):
        reads.number(tag.CODE_DIGIT, 0, 7)


def name(t, names):
    def read(reads):
        if not reads.extended(t) and reads.number(t, 0, len(names) - 1) >= len(names):
            raise Bad
    return read


def three_speed_types(reads):
    for _ in range(3):
        name(tag.SPEED_TYPE, SPEED_TYPES)(reads)


def procedure(reads, kind=tag.PROCEDURE):
    """The tags of the name and of the transition follow that of the kind."""
    transition = reads.take(1)
    reads.index(kind, 2, 3)
    reads.text(kind + 1, 1, 20)
    if transition:
        reads.text(kind + 2, 1, 5)


def runway(reads, direction=tag.RUNWAY):
    reads.number(direction, 1, 36)
    reads.number(direction + 1, 0, 3)


def departure(reads):
    there = []
    for t in (tag.FLIGHT_INFORMATION, tag.FURTHER_INSTRUCTIONS):
        if reads.take(1):
            reads.marks.add(4)  # known to be present from here on, also if the rest cannot be read
            there.append(t)
    reads.text(tag.FLIGHT_IDENTIFICATION, 2, 8)
    position(reads)
    for t in there:
        reads.say(t, 1)


ARGUMENTS = {
    1: position,
    2: speed,
    3: name(tag.SPEED_TYPE, SPEED_TYPES),
    4: three_speed_types,
    5: level,
    6: degrees,
    7: frequency,
    8: code,
    9: name(tag.TRAFFIC_TYPE, TRAFFIC_TYPES),
    10: name(tag.CLEARANCE_TYPE, CLEARANCE_TYPES),
    11: name(tag.ERROR_INFORMATION, ERRORS),
    12: name(tag.FACILITY_FUNCTION, FACILITY_FUNCTIONS),
    13: procedure,
    14: runway,
    15: coordinates,
    16: departure,
}


def argument(reads, byte):
    if byte not in ARGUMENTS:
        raise Bad
    ARGUMENTS[byte](reads)


def published(reads):
    if reads.number(tag.PUBLISHED, 0, 1):
        named(reads, tag.PUBLISHED_NAVAID, 4)
    else:
        named(reads, tag.PUBLISHED_FIX, 5)


def leg(reads):
    kind = reads.index(tag.ROUTE_INFORMATION, 3, 5)
    if kind == 0:
        published(reads)
    elif kind == 1:
        coordinates(reads)
    elif kind == 4:
        reads.text(tag.ROUTE_DESIGNATOR, 2, 7)
    else:
        # The distance of alternative 3 is refused with 6, so here that one always ends before it.
        for _ in range(2):
            published(reads)
            degrees(reads)


def airport(t):
    return lambda reads: reads.text(t, 4, 4)


def route(reads):
    for place in range(reads.ranged(1, 128)):
        reads.say(tag.LEG, place + 1)
        leg(reads)


def additional(reads):
    reads.marks.add(4)
    reads.say(tag.ADDITIONAL, 1)


CLEARANCE = [
    airport(tag.DEPARTURE_AIRPORT),
    airport(tag.DESTINATION_AIRPORT),
    lambda reads: runway(reads, tag.DEPARTURE_RUNWAY),
    lambda reads: procedure(reads, tag.DEPARTURE_PROCEDURE),
    lambda reads: runway(reads, tag.ARRIVAL_RUNWAY),
    lambda reads: procedure(reads, tag.APPROACH_PROCEDURE),
    lambda reads: procedure(reads, tag.ARRIVAL_PROCEDURE),
    route,
    additional,
]


def there(reads):
    """A presence bit of a clearance; beyond the window the part is absent, with mark 7."""
    try:
        return reads.take(1)
    except Ended:
        reads.marks.add(7)
        return 0


def clearance(reads, place):
    reads.say(tag.CLEARANCE, place)
    # By 01's words the last part is known to be present from its bit on, also if the clearance fails before it.
    present = [there(reads) for _ in CLEARANCE]
    if present[-1]:
        reads.marks.add(4)
    for bit, part in zip(present, CLEARANCE):
        if bit:
            part(reads)
