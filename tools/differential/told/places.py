"""Places and route clearances as the Rust words them, from records."""

from . import tags as tag
from .records import Misfit
from .values import degrees, parts, pick, procedure, runway

LATITUDE = (tag.LATITUDE, tag.LATITUDE_THOUSANDTHS, tag.LATITUDE_DEGREES, tag.LATITUDE_HUNDREDTHS,
            tag.LATITUDE_MINUTES, tag.LATITUDE_SECONDS, tag.LATITUDE_SIDE)
LONGITUDE = (tag.LONGITUDE, tag.LONGITUDE_THOUSANDTHS, tag.LONGITUDE_DEGREES, tag.LONGITUDE_HUNDREDTHS,
             tag.LONGITUDE_MINUTES, tag.LONGITUDE_SECONDS, tag.LONGITUDE_SIDE)


def angle(records, tags, sides):
    form, thousandths, whole, hundredths, minutes, seconds, side = tags
    kind = records.number(form)
    if kind == 0:
        shown = parts(records.number(thousandths), 3) + "°"
    elif kind == 1:
        shown = f"{records.number(whole)}°{parts(records.number(hundredths), 2)}'"
    elif kind == 2:
        shown = f"{records.number(whole)}°{records.number(minutes)}'{records.number(seconds)}\""
    else:
        raise Misfit(f"coordinate form {kind}")
    return shown + pick(sides, records.number(side))


def coordinates(records):
    records.fixed(tag.COORDINATES, 0)
    shown = []
    if records.next_is(tag.LATITUDE):
        shown.append(angle(records, LATITUDE, "NS"))
    if records.next_is(tag.LONGITUDE):
        shown.append(angle(records, LONGITUDE, "EW"))
    return " ".join(shown)


def named(records, name):
    shown = records.text(name)
    if records.next_is(tag.COORDINATES):
        shown += f" ({coordinates(records)})"
    return shown


def position(records):
    kind = records.number(tag.POSITION)
    if kind == 0:
        return named(records, tag.FIX)
    if kind == 1:
        return named(records, tag.NAVAID)
    if kind == 2:
        return records.text(tag.AIRPORT)
    if kind == 3:
        return coordinates(records)
    raise Misfit(f"position {kind}")


def published(records):
    kind = records.number(tag.PUBLISHED)
    return named(records, pick([tag.PUBLISHED_FIX, tag.PUBLISHED_NAVAID], kind))


def bearing(records):
    place = published(records)
    return f"{place} BRG {degrees(records)}"


def leg(records):
    kind = records.number(tag.ROUTE_INFORMATION)
    if kind == 0:
        return published(records)
    if kind == 1:
        return coordinates(records)
    if kind == 2:
        first = bearing(records)
        return f"{first} / {bearing(records)}"
    if kind == 4:
        return records.text(tag.ROUTE_DESIGNATOR)
    raise Misfit(f"route information {kind}")


def clearance(records):
    """What follows the record of a clearance's place."""
    shown = {}
    for key, t in (("departure_airport", tag.DEPARTURE_AIRPORT), ("destination_airport", tag.DESTINATION_AIRPORT)):
        if records.next_is(t):
            shown[key] = records.text(t)
    for key, show, tags in (
        ("departure_runway", runway, (tag.DEPARTURE_RUNWAY, tag.DEPARTURE_RUNWAY_SIDE)),
        ("departure_procedure", procedure,
         (tag.DEPARTURE_PROCEDURE, tag.DEPARTURE_PROCEDURE_NAME, tag.DEPARTURE_PROCEDURE_TRANSITION)),
        ("arrival_runway", runway, (tag.ARRIVAL_RUNWAY, tag.ARRIVAL_RUNWAY_SIDE)),
        ("approach_procedure", procedure,
         (tag.APPROACH_PROCEDURE, tag.APPROACH_PROCEDURE_NAME, tag.APPROACH_PROCEDURE_TRANSITION)),
        ("arrival_procedure", procedure,
         (tag.ARRIVAL_PROCEDURE, tag.ARRIVAL_PROCEDURE_NAME, tag.ARRIVAL_PROCEDURE_TRANSITION)),
    ):
        if records.next_is(tags[0]):
            shown[key] = show(records, *tags)
    if records.next_is(tag.LEG):
        shown["route"] = listed(records, tag.LEG, leg)
    if records.next_is(tag.ADDITIONAL):
        records.fixed(tag.ADDITIONAL, 1)
        shown["additional"] = "present (undecoded)"
    return shown


def listed(records, place, show):
    """Entries that each begin with their place, from 1."""
    shown = []
    while records.next_is(place):
        records.fixed(place, len(shown) + 1)
        shown.append(show(records))
    return shown
