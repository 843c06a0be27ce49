"""The substitutions in the Rust text. Each one must fit at exactly one place; all else stays as it is.

A function that document 01 replaces keeps its body under another name, and put_in.rs has the function in its stead.
"""

# (a) The element tables are lent by the case.
# (b) The dispatch of arguments is 01's list of bytes.
# (c) The distance, the facility designation and the AP address are not supplied.
PUT_IN = [
    ('include!("atn_cpdlc_tables.rs");', ""),
    ("fn read_argument(", "fn read_argument_as_written("),
    ("fn read_distance(", "fn read_distance_as_written("),
    ("fn read_facility_designation(", "fn read_facility_designation_as_written("),
    ("fn read_ap_address(", "fn read_ap_address_as_written("),
]

# (d) Only in `watched`: these reads of bits, ranged numbers and lengths are noted, and do what they did.
WATCHED = [
    ("fn bit(", "fn bit_as_written("),
    ("fn uint(", "fn uint_as_written("),
    ("fn remaining_bytes(", "fn remaining_bytes_as_written("),
    ("fn constrained(", "fn constrained_as_written("),
    ("fn length_frag(", "fn length_frag_as_written("),
]


def apply(text, substitutions):
    for old, new in substitutions:
        count = text.count(old)
        if count != 1:
            raise SystemExit(f"build: {old!r} stands {count} times in the text, not once")
        text = text.replace(old, new)
    return text
