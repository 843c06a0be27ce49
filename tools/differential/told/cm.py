"""Context Management messages as the objects that the Rust gives, from records."""

from . import tags as tag
from .places import listed
from .values import date, pick, reason

GROUND = ["logon-response", "update", "contact-request", "forward-request", "abort", "forward-response"]
AIRCRAFT = ["logon-request", "contact-response", "abort"]


def application(records):
    qualifier = records.number(tag.AE_QUALIFIER)
    return {"ae_qualifier": qualifier, "ap_version": records.number(tag.AP_VERSION)}


def long_tsap(records):
    shown = {"rdp": records.span(tag.RDP), "short_tsap": {}}
    if records.next_is(tag.ARS):
        shown["short_tsap"]["ars"] = records.span(tag.ARS)
    shown["short_tsap"]["loc_sys_nsel_tsel"] = records.span(tag.LOC_SYS_NSEL_TSEL)
    return shown


def etd(records):
    shown = date(records, tag.ETD_YEAR, tag.ETD_MONTH, tag.ETD_DAY)
    hours = records.number(tag.ETD_HOURS)
    return f"{shown}T{hours:02}:{records.number(tag.ETD_MINUTES):02}Z"


# A list with addresses cannot be accepted: the address is not supplied.
def logon_request(records):
    shown = {"flight_id": records.text(tag.FLIGHT_ID), "cm_long_tsap": long_tsap(records)}
    if records.next_is(tag.AIR_ONLY_INITIATED):
        shown["air_only_initiated_applications"] = listed(records, tag.AIR_ONLY_INITIATED, application)
    for key, t in (("airport_departure", tag.AIRPORT_DEPARTURE), ("airport_destination", tag.AIRPORT_DESTINATION)):
        if records.next_is(t):
            shown[key] = records.text(t)
    if records.next_is(tag.ETD_YEAR):
        shown["etd"] = etd(records)
    return shown


def cm_ground(records):
    kind = pick(GROUND, records.number(tag.CM_GROUND_PDU))
    shown = {"pdu": kind}
    if kind in ("logon-response", "update"):
        if records.next_is(tag.GROUND_ONLY_INITIATED):
            shown["ground_only_initiated_applications"] = listed(records, tag.GROUND_ONLY_INITIATED, application)
    elif kind == "forward-request":
        shown["request"] = logon_request(records)
    elif kind == "abort":
        shown["reason"] = reason(records, tag.CM_ABORT_REASON)
    elif kind == "forward-response":
        names = ["success", "incompatible-version", "service-not-supported", "?"]
        shown["response"] = pick(names, records.number(tag.CM_FORWARD_RESPONSE))
    return shown


def cm_logon(records):
    kind = pick(AIRCRAFT, records.number(tag.CM_AIRCRAFT_PDU))
    shown = {"pdu": kind}
    if kind == "logon-request":
        shown.update(logon_request(records))
    elif kind == "contact-response":
        shown["response"] = pick(["contactSuccess", "contactNotSuccessful"], records.number(tag.CONTACT_RESPONSE))
    else:
        shown["reason"] = reason(records, tag.CM_ABORT_REASON)
    return shown
