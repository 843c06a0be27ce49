"""Our records, told as the objects that the Rust gives."""

from .acse import acse
from .cm import cm_ground, cm_logon
from .cpdlc import pdus
from .records import Misfit, Records

WITHOUT_TABLES = {("cm", "1"): cm_ground, ("cm", "0"): cm_logon, ("acse", "-"): acse}


def told(case, records):
    """The object of an accepted reading; raises Misfit where the records are not those of a message."""
    taken = Records(records, case.frame)
    if (case.entry, case.direction) in WITHOUT_TABLES:
        shown = WITHOUT_TABLES[case.entry, case.direction](taken)
    else:
        shown = pdus(taken, case.down, case.up)
    taken.end()
    return shown
