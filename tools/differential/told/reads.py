"""Whether the Rust made the reads behind our records.

The Rust shows a fix, a navaid and an airport by their names alone, a string by its octets, and some numbers of different kinds
alike. So each record's number, as it stands in the frame, must be among the reads of the Rust, in the order of the records.
"""

from . import tags as tag

# The lowest and the highest number of each tag.
RANGES = {
    tag.USER_ABORT_REASON: (0, 12), tag.PROVIDER_ABORT_REASON: (0, 7), tag.FORWARD_RESPONSE: (0, 2),
    tag.MODE: (0, 1), tag.MSG_ID: (0, 63), tag.MSG_REF: (0, 63), tag.CARRIED_DIRECTION: (0, 1),
    tag.YEAR: (1996, 2095), tag.MONTH: (1, 12), tag.DAY: (1, 31),
    tag.HOURS: (0, 23), tag.MINUTES: (0, 59), tag.SECONDS: (0, 59),
    tag.POSITION: (0, 4), tag.PUBLISHED: (0, 1), tag.ROUTE_INFORMATION: (0, 4),
    tag.LATITUDE: (0, 2), tag.LATITUDE_THOUSANDTHS: (0, 90000), tag.LATITUDE_DEGREES: (0, 89),
    tag.LATITUDE_HUNDREDTHS: (0, 5999), tag.LATITUDE_MINUTES: (0, 59), tag.LATITUDE_SECONDS: (0, 59),
    tag.LATITUDE_SIDE: (0, 1),
    tag.LONGITUDE: (0, 2), tag.LONGITUDE_THOUSANDTHS: (0, 180000), tag.LONGITUDE_DEGREES: (0, 179),
    tag.LONGITUDE_HUNDREDTHS: (0, 5999), tag.LONGITUDE_MINUTES: (0, 59), tag.LONGITUDE_SECONDS: (0, 59),
    tag.LONGITUDE_SIDE: (0, 1),
    tag.SPEED: (0, 6), tag.SPEED_TYPE: (0, 8), tag.LEVEL: (0, 3),
    tag.DEGREES: (0, 1), tag.DEGREES_NUMBER: (1, 360), tag.FREQUENCY: (0, 3), tag.CODE_DIGIT: (0, 7),
    tag.TRAFFIC_TYPE: (0, 5), tag.CLEARANCE_TYPE: (0, 11), tag.ERROR_INFORMATION: (0, 4), tag.FACILITY_FUNCTION: (0, 8),
    tag.PROCEDURE: (0, 2), tag.RUNWAY: (1, 36), tag.RUNWAY_SIDE: (0, 3),
    tag.DEPARTURE_RUNWAY: (1, 36), tag.DEPARTURE_RUNWAY_SIDE: (0, 3), tag.DEPARTURE_PROCEDURE: (0, 2),
    tag.ARRIVAL_RUNWAY: (1, 36), tag.ARRIVAL_RUNWAY_SIDE: (0, 3),
    tag.APPROACH_PROCEDURE: (0, 2), tag.ARRIVAL_PROCEDURE: (0, 2),
    tag.CM_GROUND_PDU: (0, 5), tag.CM_AIRCRAFT_PDU: (0, 2), tag.CM_ABORT_REASON: (0, 9), tag.CM_FORWARD_RESPONSE: (0, 2),
    tag.CONTACT_RESPONSE: (0, 1), tag.AE_QUALIFIER: (0, 255), tag.AP_VERSION: (1, 255),
    tag.ETD_YEAR: (1996, 2095), tag.ETD_MONTH: (1, 12), tag.ETD_DAY: (1, 31), tag.ETD_HOURS: (0, 23), tag.ETD_MINUTES: (0, 59),
    tag.ACSE_PDU: (0, 4), tag.RELEASE_REQUEST_REASON: (0, 30), tag.RELEASE_RESPONSE_REASON: (0, 30),
    tag.ABORT_SOURCE: (0, 1), tag.ABORT_DIAGNOSTIC: (0, 5),
}

# A number whose range goes by the index before it.
BY_INDEX = {
    tag.SPEED_NUMBER: [(0, 400), (0, 800), (0, 2000), (0, 4000), (-50, 2000), (-100, 4000), (500, 4000)],
    tag.LEVEL_NUMBER: [(-60, 7000), (-30, 25000), (30, 700), (100, 2500)],
    tag.FREQUENCY_NUMBER: [(2850, 28000), (23600, 27398), (9000, 15999)],
}

# The fewest and the most characters of each text.
TEXTS = {
    tag.AIRCRAFT_ID: (2, 8), tag.FIX: (1, 5), tag.NAVAID: (1, 4), tag.AIRPORT: (4, 4),
    tag.PROCEDURE_NAME: (1, 20), tag.PROCEDURE_TRANSITION: (1, 5), tag.FLIGHT_IDENTIFICATION: (2, 8),
    tag.DEPARTURE_AIRPORT: (4, 4), tag.DESTINATION_AIRPORT: (4, 4),
    tag.DEPARTURE_PROCEDURE_NAME: (1, 20), tag.DEPARTURE_PROCEDURE_TRANSITION: (1, 5),
    tag.APPROACH_PROCEDURE_NAME: (1, 20), tag.APPROACH_PROCEDURE_TRANSITION: (1, 5),
    tag.ARRIVAL_PROCEDURE_NAME: (1, 20), tag.ARRIVAL_PROCEDURE_TRANSITION: (1, 5),
    tag.PUBLISHED_FIX: (1, 5), tag.PUBLISHED_NAVAID: (1, 4), tag.ROUTE_DESIGNATOR: (2, 7),
    tag.FLIGHT_ID: (2, 8), tag.AIRPORT_DEPARTURE: (4, 4), tag.AIRPORT_DESTINATION: (4, 4),
}

# The kinds of places that begin with a name, and what stands between the kind and the name.
NAMED = {tag.POSITION: {0: [None], 1: [None], 2: []}, tag.PUBLISHED: {0: [None], 1: [None]}}

SPANS = {tag.AIRCRAFT_ADDRESS, tag.INTEGRITY_CHECK, tag.RDP, tag.ARS, tag.LOC_SYS_NSEL_TSEL}


def raw(value, limits):
    """A number as it stands in the frame."""
    lowest, highest = limits
    return f"{(highest - lowest).bit_length()}:{(value - lowest) % 2**64}"


def text_reads(t, value, length, left):
    """The reads of a text's record: its length before the first characters, unless it is fixed, and the characters."""
    if left == length and TEXTS[t][0] < TEXTS[t][1]:
        yield raw(length, TEXTS[t])
    for character in value.to_bytes(8, "big")[: min(left, 8)]:
        yield f"7:{character}"


def numbers(case, records):
    """The reads behind the records, of those that have one of their own: lists of reads that follow each other, None for any."""
    tables, left, index, name = [case.down, case.up], 0, 0, []
    for t, _, value, second, _ in records:
        if t == tag.DIRECTION:
            uplink = value
            table = tables[uplink]
        elif t in TEXTS:
            left = left or second
            yield name + list(text_reads(t, value, second, left))
            left, name = max(left - 8, 0), []
        elif t in SPANS or second > 1:
            pass
        elif second == 1:
            yield ["1:1"]
        elif t == tag.PDU:
            yield [raw(value, (0, 5 if uplink else 3))]
        elif t == tag.ELEMENT_INDEX:
            yield [raw(value, (0, len(table) - 1))]
        elif t in BY_INDEX:
            yield [raw(value, BY_INDEX[t][index])]
        elif t in NAMED and value in NAMED[t]:
            # The kind of a place, for a fix or a navaid the presence bit of its coordinates, and then its name.
            name = [raw(value, RANGES[t])] + NAMED[t][value]
        elif t in RANGES:
            yield [raw(value, RANGES[t])]
            if t == tag.CARRIED_DIRECTION:
                table = tables[1 - value]
        index = value


def in_order(few, many):
    """Whether each list of `few` stands in `many`, one after another."""
    at = 0
    for wanted in few:
        while any(one not in (None, other) for one, other in zip(wanted, many[at:at + len(wanted)])):
            at += 1
        at += len(wanted)
        if at > len(many):
            return False
    return True


def read_faults(case, records, strings, reads):
    """None, or what the Rust did not read; `strings` and `reads` are those that it took."""
    spans = [[f"{value}+{second}"] for t, _, value, second, _ in records if t in SPANS]
    if not in_order(spans, strings.split()):
        return f"spans {spans}, the Rust took{strings}"
    wanted = list(numbers(case, records))
    if not in_order(wanted, reads.split()):
        return f"numbers {wanted}, the Rust read{reads}"
    return None
