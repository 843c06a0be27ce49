"""ACSE messages as the objects that the Rust gives, from records."""

from . import tags as tag
from .values import or_extended, pick, reason

KINDS = ["aarq", "aare", "rlrq", "rlre", "abrt"]
SOURCES = ["acse-service-user", "acse-service-provider"]
DIAGNOSTICS = [
    "no-reason-given",
    "protocol-error",
    "authentication-mechanism-name-not-recognized",
    "authentication-mechanism-name-required",
    "authentication-failure",
    "authentication-required",
    "?",
    "?",
]


def acse(records):
    if records.said(tag.ACSE_PDU, 1):
        return {"pdu": "extension-alternative"}
    kind = pick(KINDS, records.number(tag.ACSE_PDU))
    shown = {"pdu": kind}
    for release, t in (("rlrq", tag.RELEASE_REQUEST_REASON), ("rlre", tag.RELEASE_RESPONSE_REASON)):
        if kind == release and records.next_is(t):
            shown["reason"] = "absent" if records.said(t, 2) else reason(records, t)
    if kind == "abrt":
        if records.next_is(tag.ABORT_SOURCE):
            shown["abort_source"] = or_extended(records, tag.ABORT_SOURCE, SOURCES)
        if records.next_is(tag.ABORT_DIAGNOSTIC):
            shown["abort_diagnostic"] = or_extended(records, tag.ABORT_DIAGNOSTIC, DIAGNOSTICS)
    return shown
