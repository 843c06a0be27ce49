"""Numbers and names as the Rust words them, from records."""

from . import tags as tag
from .records import Misfit

SPEEDS = ["{} KT IAS", "{} KM/H IAS", "{} KT TAS", "{} KM/H TAS", "{} KT GS", "{} KM/H GS"]
SPEED_TYPES = ["NONE", "INDICATED", "TRUE", "GROUND", "MACH", "APPROACH", "CRUISE", "MINIMUM", "MAXIMUM"]
TRAFFIC_TYPES = ["NONE", "OPPOSITE DIRECTION", "SAME DIRECTION", "CONVERGING", "CROSSING", "DIVERGING"]
CLEARANCE_TYPES = [
    "NONE", "APPROACH", "DEPARTURE", "FURTHER", "START-UP", "PUSHBACK",
    "TAXI", "TAKE-OFF", "LANDING", "OCEANIC", "EN-ROUTE", "DOWNSTREAM",
]
ERRORS = [
    "UNRECOGNIZED MSG REFERENCE NUMBER",
    "LOGICAL ACKNOWLEDGMENT NOT ACCEPTED",
    "INSUFFICIENT RESOURCES",
    "INVALID MESSAGE ELEMENT COMBINATION",
    "INVALID MESSAGE ELEMENT",
]
FACILITY_FUNCTIONS = ["CENTER", "APPROACH", "TOWER", "FINAL", "GROUND", "DELIVERY", "DEPARTURE", "CONTROL", "RADIO"]


def pick(names, index):
    if not 0 <= index < len(names):
        raise Misfit(f"index {index} has no name")
    return names[index]


def parts(whole, digits):
    """A number of tenths, hundredths and so on, written with a point."""
    scale = 10**digits
    return f"{whole // scale}.{whole % scale:0{digits}}"


def or_extended(records, t, names):
    """A name from a list, or what a set extension bit leaves."""
    return "(extended)" if records.said(t, 1) else pick(names, records.number(t))


def reason(records, t):
    """A reason is shown as its number."""
    return "(extended)" if records.said(t, 1) else records.number(t)


def speed(records):
    kind = records.number(tag.SPEED)
    number = records.number(tag.SPEED_NUMBER)
    return "M" + parts(number, 3) if kind == 6 else pick(SPEEDS, kind).format(number)


def level(records):
    kind = records.number(tag.LEVEL)
    number = records.number(tag.LEVEL_NUMBER)
    return pick([f"{number * 10} FT", f"{number} M", f"FL{number}", f"{number * 10} M"], kind)


def degrees(records):
    kind = records.number(tag.DEGREES)
    return f"{records.number(tag.DEGREES_NUMBER)}°{pick('MT', kind)}"


def frequency(records):
    kind = records.number(tag.FREQUENCY)
    if kind == 3:
        shown = records.text(tag.SATELLITE_CHANNEL)
        if not shown or min(shown) < "0" or max(shown) > "?":
            raise Misfit(f"{shown!r} has characters of no channel")
        if max(shown) <= ":":
            numeric = "".join(" 0123456789"[ord(character) - ord("0")] for character in shown)
            if records.text(tag.SATELLITE_CHANNEL_X691) != numeric:
                raise Misfit(f"not the channel {shown!r} by X.691")
        return "SAT " + shown
    number = records.number(tag.FREQUENCY_NUMBER)
    return pick([f"{number} kHz", parts(number * 5, 3) + " MHz", parts(number * 25, 3) + " MHz"], kind)


def code(records):
    return "".join(pick("01234567", records.number(tag.CODE_DIGIT)) for _ in range(4))


def runway(records, direction, side):
    number = records.number(direction)
    return f"RWY {number:02}{pick(['L', 'R', 'C', ''], records.number(side))}"


def procedure(records, kind, name, transition):
    word = pick(["ARRIVAL", "APPROACH", "DEPARTURE"], records.number(kind))
    shown = f"{records.text(name)} ({word})"
    if records.next_is(transition):
        shown += " TRANSITION " + records.text(transition)
    return shown


def date(records, year, month, day):
    return f"{records.number(year):04}-{records.number(month):02}-{records.number(day):02}"


def timestamp(records):
    shown = date(records, tag.YEAR, tag.MONTH, tag.DAY)
    hours, minutes, seconds = (records.number(t) for t in (tag.HOURS, tag.MINUTES, tag.SECONDS))
    return f"{shown}T{hours:02}:{minutes:02}:{seconds:02}Z"
