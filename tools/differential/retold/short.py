"""Records and marks of the messages of context management and association control that two bytes can hold."""

from told import tags as tag
from told.acse import DIAGNOSTICS, KINDS, SOURCES
from told.cm import AIRCRAFT, GROUND
from told.marks import seen

# What the Rust shows for an index that it has no name for. A reason's name comes in `reason_text`, and is left out so too.
NAMELESS = "?"


def said(value):
    """Value and second number of what the Rust gives as a number or as one of two words."""
    return {"(extended)": (0, 1), "absent": (0, 2)}.get(value) or (value, 0)


def named(names, value, last):
    """A name's index; where the Rust has none it shows `?`, and the index is the last number that it read."""
    if value == NAMELESS:
        return last, 0
    return (names.index(value), 0) if value in names else said(value)


def acse(given, last):
    kind = given["pdu"]
    if kind == "extension-alternative":
        return [(tag.ACSE_PDU, 0, 1)]
    records = [(tag.ACSE_PDU, KINDS.index(kind), 0)]
    if "reason" in given:
        reasons = {"rlrq": tag.RELEASE_REQUEST_REASON, "rlre": tag.RELEASE_RESPONSE_REASON}
        records.append((reasons[kind], *said(given["reason"])))
    if "abort_source" in given:
        records.append((tag.ABORT_SOURCE, *named(SOURCES, given["abort_source"], last)))
    if "abort_diagnostic" in given:
        records.append((tag.ABORT_DIAGNOSTIC, *named(DIAGNOSTICS, given["abort_diagnostic"], last)))
    return records


def cm_abort(given):
    return [(tag.CM_ABORT_REASON, *said(given["reason"]))] if given["pdu"] == "abort" else []


def cm_ground(given, last):
    records = [(tag.CM_GROUND_PDU, GROUND.index(given["pdu"]), 0)] + cm_abort(given)
    if given["pdu"] == "forward-response":
        names = ["success", "incompatible-version", "service-not-supported"]
        records.append((tag.CM_FORWARD_RESPONSE, *named(names, given["response"], last)))
    return records


def cm_logon(given, last):
    records = [(tag.CM_AIRCRAFT_PDU, AIRCRAFT.index(given["pdu"]), 0)] + cm_abort(given)
    if given["pdu"] == "contact-response":
        names = ["contactSuccess", "contactNotSuccessful"]
        records.append((tag.CONTACT_RESPONSE, *named(names, given["response"], last)))
    return records


def marks(given, read):
    """All marks that these messages can have show: 1 by a number above its range or without a name, 2 and 3 by the object."""
    met = {mark for mark in range(1, 8) if read >> (mark - 1) & 1}
    seen(given, met)
    if NAMELESS in given.values() or (isinstance(given.get("reason"), int) and "reason_text" not in given):
        met.add(1)
    return sum(1 << (mark - 1) for mark in met)


# The keys that a message of two bytes can have; any other would be told by nobody here.
KEYS = {"application", "pdu", "note", "reason", "reason_text", "response", "abort_source", "abort_diagnostic"}
ENTRIES = {("cm", "1"): cm_ground, ("cm", "0"): cm_logon, ("acse", "-"): acse}


def records(entry, given, numbers):
    if not given.keys() <= KEYS:
        raise SystemExit(f"{entry}: no message of two bytes: {given}")
    last = int(numbers.split()[-1].split(":")[1])
    return [(t, 0, value, second) for t, value, second in ENTRIES[entry](given, last)]
