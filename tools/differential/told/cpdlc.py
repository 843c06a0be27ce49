"""CPDLC messages as the objects that the Rust gives, from records."""

from . import tags as tag
from .places import clearance, coordinates, listed, position
from .values import (CLEARANCE_TYPES, ERRORS, FACILITY_FUNCTIONS, SPEED_TYPES, TRAFFIC_TYPES, code, degrees, frequency,
                     level, or_extended, pick, procedure, reason, runway, speed, timestamp)

DOWN = ["abort-user", "abort-provider", "startdown", "send"]
UP = ["abort-user", "abort-provider", "startup", "send", "forward", "forward-response"]
RESPONSES = ["success", "service-not-supported", "version-not-equal", "?"]
UNREAD = " (+flight-info/further-instructions present, undecoded)"


def departure_clearance(records):
    flight = records.text(tag.FLIGHT_IDENTIFICATION)
    shown = f"{flight} CLEARED TO {position(records)}"
    unread = ""
    for t in (tag.FLIGHT_INFORMATION, tag.FURTHER_INSTRUCTIONS):
        if records.next_is(t):
            records.fixed(t, 1)
            unread = UNREAD
    return shown + unread


def enumeration(t, names):
    return lambda records: or_extended(records, t, names)


speed_type = enumeration(tag.SPEED_TYPE, SPEED_TYPES)

# By the byte of the lent table: the tag of the argument's first record, how it is shown, and the number of texts.
ARGUMENTS = {
    1: (tag.POSITION, position, 1),
    2: (tag.SPEED, speed, 1),
    3: (tag.SPEED_TYPE, speed_type, 1),
    4: (tag.SPEED_TYPE, speed_type, 3),
    5: (tag.LEVEL, level, 1),
    6: (tag.DEGREES, degrees, 1),
    7: (tag.FREQUENCY, frequency, 1),
    8: (tag.CODE_DIGIT, code, 1),
    9: (tag.TRAFFIC_TYPE, enumeration(tag.TRAFFIC_TYPE, TRAFFIC_TYPES), 1),
    10: (tag.CLEARANCE_TYPE, enumeration(tag.CLEARANCE_TYPE, CLEARANCE_TYPES), 1),
    11: (tag.ERROR_INFORMATION, enumeration(tag.ERROR_INFORMATION, ERRORS), 1),
    12: (tag.FACILITY_FUNCTION, enumeration(tag.FACILITY_FUNCTION, FACILITY_FUNCTIONS), 1),
    13: (tag.PROCEDURE, lambda r: procedure(r, tag.PROCEDURE, tag.PROCEDURE_NAME, tag.PROCEDURE_TRANSITION), 1),
    14: (tag.RUNWAY, lambda r: runway(r, tag.RUNWAY, tag.RUNWAY_SIDE), 1),
    15: (tag.COORDINATES, coordinates, 1),
    16: (tag.FLIGHT_IDENTIFICATION, departure_clearance, 1),
}


def element(records, table):
    """An element; one whose argument could not be read has no fields."""
    records.element += 1
    index = records.number(tag.ELEMENT_INDEX)
    shown = {"element": str(index)}
    first, show, count = ARGUMENTS.get(pick(table, index), (None, None, 0))
    if records.next_is(first):
        shown["arguments"] = [show(records) for _ in range(count)]
    return shown


def message_data(records, table):
    shown = {"elements": []}
    while records.next_is(tag.ELEMENT_INDEX):
        shown["elements"].append(element(records, table))
    records.element = 0
    clearances = listed(records, tag.CLEARANCE, clearance)
    if clearances:
        shown["route_clearances"] = clearances
    return shown


def protected_message(records, table):
    if records.next_is(tag.EMPTY):
        records.fixed(tag.EMPTY, 1)
        shown = {"empty": True}
    else:
        shown = {"msg_id": records.number(tag.MSG_ID)}
        if records.next_is(tag.MSG_REF):
            shown["msg_ref"] = records.number(tag.MSG_REF)
        shown["timestamp"] = timestamp(records)
        shown["logical_ack"] = pick(["required", "not-required"], records.number(tag.LOGICAL_ACK))
        shown.update(message_data(records, table))
    if records.next_is(tag.INTEGRITY_CHECK):
        shown["integrity_check"] = records.span(tag.INTEGRITY_CHECK)
    return shown


def forward(records, down, up):
    shown = {
        "timestamp": timestamp(records),
        "aircraft_id": records.text(tag.AIRCRAFT_ID),
        "aircraft_address": records.span(tag.AIRCRAFT_ADDRESS),
    }
    carried = records.number(tag.CARRIED_DIRECTION)
    shown["carried_direction"] = pick(["uplink", "downlink"], carried)
    if records.next_is(tag.ELEMENT_INDEX):
        shown["elements"] = message_data(records, [up, down][carried])
    return shown


def pdus(records, down, up):
    direction = records.number(tag.DIRECTION)
    shown = {"direction": pick(["downlink", "uplink"], direction)}
    if records.said(tag.PDU, 1):
        shown["pdu"] = "extension-alternative"
        shown["extension_index"] = records.word(tag.EXTENSION_INDEX)
        return shown
    kind = shown["pdu"] = pick([DOWN, UP][direction], records.number(tag.PDU))
    if kind == "abort-user":
        shown["reason"] = reason(records, tag.USER_ABORT_REASON)
    elif kind == "abort-provider":
        shown["reason"] = reason(records, tag.PROVIDER_ABORT_REASON)
    elif kind == "forward-response":
        shown["response"] = or_extended(records, tag.FORWARD_RESPONSE, RESPONSES)
    elif kind == "forward":
        if records.next_is(tag.YEAR):
            shown["forward"] = forward(records, down, up)
    else:
        if kind == "startdown" and records.next_is(tag.MODE):
            shown["mode"] = pick(["cpdlc", "dsc"], records.number(tag.MODE))
        shown["message"] = protected_message(records, [down, up][direction])
    return shown
