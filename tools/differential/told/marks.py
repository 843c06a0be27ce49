"""The marks that show in what the Rust gives and reads.

Marks are document 01's own, so the Rust has no complete set to compare with. What can be seen: marks 3 and 5 exactly; marks 1, 2
and 4 where a number above its range, an extension or an unread part was met in plain sight, and maybe elsewhere too.
"""

from .cpdlc import UNREAD

EXACT = {3, 5}


def seen(value, marks):
    """Add the marks that show in the Rust's object."""
    if isinstance(value, list):
        for one in value:
            seen(one, marks)
    elif isinstance(value, dict):
        if value.get("pdu") == "extension-alternative" or "extension additions" in value.get("note", ""):
            marks.add(2)
        if value.get("pdu") in ("aarq", "aare") or ("argument_type" in value and "arguments" not in value):
            marks.add(3)
        if "additional" in value:
            marks.add(4)
        for one in value.values():
            seen(one, marks)
    elif value == "(extended)":
        marks.add(2)
    elif isinstance(value, str) and value.endswith(UNREAD):
        marks.add(4)


def mark_faults(given, read, ours):
    """None, or what is wrong with our marks; `given` is the Rust's object, `read` the set that its reads show."""
    wanted = {mark for mark in range(1, 8) if read >> (mark - 1) & 1}
    seen(given, wanted)
    marks = {mark for mark in range(1, 8) if ours >> (mark - 1) & 1}
    if ours >= 128 or not wanted <= marks or wanted & EXACT != marks & EXACT:
        return f"marks {sorted(marks)}, of those seen {sorted(wanted)}"
    return None
