"""Whether our answer to a case is the Rust's."""

import json

from . import Misfit, told
from .marks import mark_faults
from .reads import read_faults

# What document 01 leaves out of the records: names that are always the same, types, notes and display text.
LEFT_OUT = {"application", "version", "argument_type", "note", "phrase", "text", "reason_text"}


def stripped(value):
    if isinstance(value, dict):
        return {k: stripped(v) for k, v in value.items() if k not in LEFT_OUT and v is not None}
    if isinstance(value, list):
        return [stripped(v) for v in value]
    return value


def ends(oracle):
    """The ends of a reading that agree with the oracle's word. Without `watched` 4 and 5 are not told apart."""
    if oracle.startswith("some "):
        return {"whole", "cut", "7"}
    return {"none": {"4", "5"}, "unsupplied": {"6"}, "unsupplied-up": {"4", "6"}}[oracle]


def given(oracle):
    """The Rust's object."""
    return json.loads(oracle.removeprefix("some "))


def record_faults(case, oracle, ours):
    if ours.count != len(ours.records):
        return f"{ours.count} records announced, {len(ours.records)} given"
    if ours.count * 5 > case.room:
        return "more words than lent"
    try:
        shown = told(case, ours.records)
    except Misfit as misfit:
        return str(misfit)
    wanted = stripped(given(oracle))
    if shown != wanted:
        one, other = (json.dumps(value, ensure_ascii=False, sort_keys=True) for value in (wanted, shown))
        return f"fields differ\n  the Rust: {one}\n  ours:     {other}"
    return None


def watched_faults(case, oracle, watched, ours):
    """The number and the reach exactly, and the reads behind the records and marks; a 7 stands for an accepted reading."""
    head, *read = watched.split(";")
    end, reach, marks = head.split()
    if ours.reach != int(reach):
        return f"reach {ours.reach}, the Rust took {reach}"
    if end != ours.end and not (ours.end == "7" and end in ("whole", "cut")):
        return f"{ours.end}, the Rust's reads say {end}"
    if not ours.accepted():
        return None
    return read_faults(case, ours.records, *read) or mark_faults(given(oracle), int(marks), ours.marks)


def difference(case, oracle, ours, watched=None):
    """None, or what differs."""
    early = case.refused_before()
    if early or oracle == "outside":
        good = early and oracle == "outside" and (ours.end, ours.reach) == (str(early), 0)
        return None if good else f"refusal {early} with reach 0 expected"
    if ours.end not in ends(oracle):
        return f"{ours.end}, the Rust: {oracle.split()[0]}"
    if ours.reach > len(case.frame) * 8:
        return "reach beyond the frame"
    if ours.end == "7" and (ours.need <= case.room or ours.need % 5):
        return f"need {ours.need} with room {case.room}"
    if ours.accepted():
        fault = record_faults(case, oracle, ours)
        if fault:
            return fault
    return watched_faults(case, oracle, watched, ours) if watched else None
