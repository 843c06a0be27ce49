"""Document 01's schema for clean, written for the third-party tool. The two tables are the cases' lent ones."""

from told import tags as t
from types_of_asn1 import (Absent, Bits, Choice, ExtensibleNumber, Inner, Listed, Many, Name, Null, Number, Numeric, Sequence, Text)

YES, MAYBE = True, False
NOT_READ = Absent()


def date(year):
    return [(Number(year, 1996, 2095), YES), (Number(year + 1, 1, 12), YES), (Number(year + 2, 1, 31), YES)]


DATE_TIME = Sequence(*date(t.YEAR), (Number(t.HOURS, 0, 23), YES), (Number(t.MINUTES, 0, 59), YES), (Number(t.SECONDS, 0, 59), YES))


def angle(first, thousandths, degrees):
    """`first` is the tag of the form; those of the numbers and of the side follow."""
    whole = Number(first + 2, 0, degrees)
    hundredths, minutes, seconds = Number(first + 3, 0, 5999), Number(first + 4, 0, 59), Number(first + 5, 0, 59)
    form = Choice(first, Number(first + 1, 0, thousandths), Sequence((whole, YES), (hundredths, YES)),
                  Sequence((whole, YES), (minutes, YES), (seconds, YES)))
    return Sequence((form, YES), (Name(first + 6, 2), YES))


COORDINATES = Sequence((angle(t.LATITUDE, 90000, 89), MAYBE), (angle(t.LONGITUDE, 180000, 179), MAYBE), before=t.COORDINATES)


def named(tag, most):
    return Sequence((Text(tag, 1, most), YES), (COORDINATES, MAYBE))


def airport(tag):
    return Text(tag, 4, 4)


def procedure(tag):
    return Sequence((Name(tag, 3), YES), (Text(tag + 1, 1, 20), YES), (Text(tag + 2, 1, 5), MAYBE))


def runway(tag):
    return Sequence((Number(tag, 1, 36), YES), (Name(tag + 1, 4), YES))


POSITION = Choice(t.POSITION, named(t.FIX, 5), named(t.NAVAID, 4), airport(t.AIRPORT), COORDINATES, NOT_READ)
PUBLISHED = Choice(t.PUBLISHED, named(t.PUBLISHED_FIX, 5), named(t.PUBLISHED_NAVAID, 4))


def numbers(index, number, *limits):
    return Choice(index, *(Number(number, low, high) for low, high in limits))


DEGREES = numbers(t.DEGREES, t.DEGREES_NUMBER, (1, 360), (1, 360))
FREQUENCY = numbers(t.FREQUENCY, t.FREQUENCY_NUMBER, (2850, 28000), (23600, 27398), (9000, 15999))
FREQUENCY = Choice(t.FREQUENCY, *FREQUENCY.alternatives, Numeric(t.SATELLITE_CHANNEL, t.SATELLITE_CHANNEL_X691, 12, 12))
SPEED_TYPE = Name(t.SPEED_TYPE, 9, extensible=True)

# By the byte of a lent table.
ARGUMENTS = [
    Null(),
    POSITION,
    numbers(t.SPEED, t.SPEED_NUMBER, (0, 400), (0, 800), (0, 2000), (0, 4000), (-50, 2000), (-100, 4000), (500, 4000)),
    SPEED_TYPE,
    Many(3, 3, SPEED_TYPE),
    numbers(t.LEVEL, t.LEVEL_NUMBER, (-60, 7000), (-30, 25000), (30, 700), (100, 2500)),
    DEGREES,
    FREQUENCY,
    Many(4, 4, Number(t.CODE_DIGIT, 0, 7)),
    Name(t.TRAFFIC_TYPE, 6, extensible=True),
    Name(t.CLEARANCE_TYPE, 12, extensible=True),
    Name(t.ERROR_INFORMATION, 5, extensible=True),
    Name(t.FACILITY_FUNCTION, 9, extensible=True),
    procedure(t.PROCEDURE),
    runway(t.RUNWAY),
    COORDINATES,
    Sequence((Text(t.FLIGHT_IDENTIFICATION, 2, 8), YES), (POSITION, YES), (NOT_READ, MAYBE), (NOT_READ, MAYBE)),
]

DOWN = bytes(range(17))
UP = bytes([0, 5, 1, 14, 0])

LEG = Choice(t.ROUTE_INFORMATION, PUBLISHED, COORDINATES, Many(2, 2, Sequence((PUBLISHED, YES), (DEGREES, YES))), NOT_READ,
             Text(t.ROUTE_DESIGNATOR, 2, 7))
CLEARANCE = Sequence(
    (airport(t.DEPARTURE_AIRPORT), MAYBE), (airport(t.DESTINATION_AIRPORT), MAYBE), (runway(t.DEPARTURE_RUNWAY), MAYBE),
    (procedure(t.DEPARTURE_PROCEDURE), MAYBE), (runway(t.ARRIVAL_RUNWAY), MAYBE), (procedure(t.APPROACH_PROCEDURE), MAYBE),
    (procedure(t.ARRIVAL_PROCEDURE), MAYBE), (Many(1, 128, LEG, t.LEG), MAYBE), (NOT_READ, MAYBE),
)
CONSTRAINED = Sequence((Many(1, 2, CLEARANCE, t.CLEARANCE), MAYBE), extensible=True)


def message_data(table):
    element = Choice(t.ELEMENT_INDEX, *(ARGUMENTS[byte] for byte in table))
    return Sequence((Many(1, 5, element, elements=True), YES), (CONSTRAINED, MAYBE))


def message(table):
    return Sequence((Number(t.MSG_ID, 0, 63), YES), (Number(t.MSG_REF, 0, 63), MAYBE), (DATE_TIME, YES),
                    (Name(t.LOGICAL_ACK, 2), 1), (message_data(table), YES))


INSIDE = {"MessageDown": message(DOWN), "MessageUp": message(UP), "DataDown": message_data(DOWN), "DataUp": message_data(UP)}
INTEGRITY = Bits(t.INTEGRITY_CHECK, "BIT STRING", [0, 0, 1, 8, 32, 127, 128, 200])


def inner(name, without=None):
    return Inner(name, INSIDE[name], without)


def protected(name):
    return Sequence((NOT_READ, MAYBE), (inner(name, t.EMPTY), MAYBE), (INTEGRITY, YES), extensible=True)


USER_ABORT = Name(t.USER_ABORT_REASON, 13, extensible=True)
PROVIDER_ABORT = Name(t.PROVIDER_ABORT_REASON, 8, extensible=True)
AIRCRAFT = Choice(t.PDU, USER_ABORT, PROVIDER_ABORT, Sequence((Name(t.MODE, 2), MAYBE), (protected("MessageDown"), YES)),
                  protected("MessageDown"), extensible=True)
FORWARD = Sequence((DATE_TIME, YES), (Text(t.AIRCRAFT_ID, 2, 8), YES),
                   (Bits(t.AIRCRAFT_ADDRESS, "BIT STRING (SIZE (24))", [24]), YES),
                   (Choice(t.CARRIED_DIRECTION, inner("DataUp"), inner("DataDown")), YES))
GROUND = Choice(t.PDU, USER_ABORT, PROVIDER_ABORT, protected("MessageUp"), protected("MessageUp"), FORWARD,
                Name(t.FORWARD_RESPONSE, 3, extensible=True), extensible=True)

SHORT_TSAP = Sequence((Bits(t.ARS, "OCTET STRING (SIZE (3))", [24]), MAYBE),
                      (Bits(t.LOC_SYS_NSEL_TSEL, "OCTET STRING (SIZE (10..11))", [80, 88]), YES))
APPLICATION = [(Number(t.AE_QUALIFIER, 0, 255), YES), (Number(t.AP_VERSION, 1, 255), YES)]
LOGON = Sequence((Text(t.FLIGHT_ID, 2, 8), YES), (Bits(t.RDP, "OCTET STRING (SIZE (5))", [40]), YES), (SHORT_TSAP, YES),
                 (NOT_READ, MAYBE), (Many(1, 256, Sequence(*APPLICATION), t.AIR_ONLY_INITIATED), MAYBE), (NOT_READ, MAYBE),
                 (airport(t.AIRPORT_DEPARTURE), MAYBE), (airport(t.AIRPORT_DESTINATION), MAYBE),
                 (Sequence(*date(t.ETD_YEAR), (Number(t.ETD_HOURS, 0, 23), YES), (Number(t.ETD_MINUTES, 0, 59), YES)), MAYBE))
RESPONSE = Sequence((NOT_READ, MAYBE), (Many(1, 256, Sequence(*APPLICATION), t.GROUND_ONLY_INITIATED), MAYBE))
CM_ABORT = Name(t.CM_ABORT_REASON, 10, extensible=True)
CM_GROUND = Choice(t.CM_GROUND_PDU, RESPONSE, RESPONSE, NOT_READ, LOGON, CM_ABORT, Name(t.CM_FORWARD_RESPONSE, 3), extensible=True)
CM_LOGON = Choice(t.CM_AIRCRAFT_PDU, LOGON, Name(t.CONTACT_RESPONSE, 2), CM_ABORT, extensible=True)


class Release(Sequence):
    """Without a reason `absent` is told."""

    def tell(self, value, told):
        if 0 in value:
            super().tell(value, told)
        else:
            told.say(self.members[0][0].tag, 0, 2)


def release(tag):
    return Release((Listed(tag, 0, 1, 30), MAYBE), extensible=True)


# The preambles with one presence bit, as 01 has them: docs/DIFFERENCES.md.
ABORT = Sequence((ExtensibleNumber(t.ABORT_SOURCE, 0, 1), YES), (Name(t.ABORT_DIAGNOSTIC, 6, extensible=True), MAYBE), extensible=True)
ACSE = Choice(t.ACSE_PDU, NOT_READ, NOT_READ, release(t.RELEASE_REQUEST_REASON), release(t.RELEASE_RESPONSE_REASON), ABORT,
              extensible=True)

# Name in the module, type, and entry and direction of the cases.
MESSAGES = {
    "Aircraft": (AIRCRAFT, "pdus", "0"),
    "Ground": (GROUND, "pdus", "1"),
    "CmGround": (CM_GROUND, "cm", "1"),
    "CmLogon": (CM_LOGON, "cm", "0"),
    "Acse": (ACSE, "acse", "-"),
}
