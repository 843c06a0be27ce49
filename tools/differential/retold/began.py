"""Where each field began, by the reads of the Rust: the bits that it had read before, in the frame and in an inner string."""

from told.judge import difference, given

from .messages import retold


def place_faults(case, oracle, watched, ours):
    """None, or where a field of an accepted reading began otherwise."""
    _, _, _, records = retold(case, given(oracle), watched)
    if len(records) != len(ours.records):
        return f"{len(ours.records)} records, by the reads of the Rust {len(records)}"
    for number, (one, other) in enumerate(zip(records, ours.records), 1):
        if one[-1] != other[-1]:
            return f"record {number} begins at {other[-1]}, the Rust read it at {one[-1]}"
    return None


def fault(case, oracle, ours, watched=None):
    """None, or what differs; with `watched` also where a field began."""
    found = difference(case, oracle, ours, watched)
    if found or not watched or not ours.accepted():
        return found
    return place_faults(case, oracle, watched, ours)
