"""Every entry's messages along the reads of the Rust."""

from told import tags as tag

from .along import Along, Bad, Ended, width
from .parts import argument, clearance


def reason(reads, t, highest):
    if not reads.extended(t):
        reads.number(t, 0, highest)


def date(reads, year):
    """The tags of the month and of the day follow that of the year."""
    reads.number(year, 1996, 2095)
    reads.number(year + 1, 1, 12)
    reads.number(year + 2, 1, 31)


def date_time(reads):
    date(reads, tag.YEAR)
    reads.number(tag.HOURS, 0, 23)
    reads.number(tag.MINUTES, 0, 59)
    reads.number(tag.SECONDS, 0, 59)


def clearances(reads):
    """What cannot be read here is passed over, with mark 7; so 01, as the Rust does."""
    try:
        if reads.take(1):
            reads.marks.add(2)
        elif reads.take(1):
            for place in range(reads.ranged(1, 2)):
                with reads.dropped_if_bad():
                    clearance(reads, place + 1)
    except (Ended, Bad):
        reads.marks.add(7)


def element(reads, table):
    """An element; whether its argument could be read."""
    place = reads.at
    index = reads.take(width(0, len(table) - 1))
    if index >= len(table):
        reads.marks.add(1)
        raise Bad
    reads.say(tag.ELEMENT_INDEX, index, 0, place)
    if table[index] == 0:
        return True
    try:
        with reads.dropped_if_bad():
            argument(reads, table[index])
        return True
    except (Ended, Bad):
        return False


def message_data(reads, table):
    constrained = reads.take(1)
    walked = True
    for place in range(reads.ranged(1, 5)):
        reads.element = place + 1
        try:
            walked = element(reads, table)
        finally:
            reads.element = 0
        if not walked:
            reads.marks.add(3)
            return
    if constrained:
        clearances(reads)
    if reads.left:
        reads.marks.add(6)


def message(reads, table):
    reference, acknowledgment = reads.take(1), reads.take(1)
    reads.number(tag.MSG_ID, 0, 63)
    if reference:
        reads.number(tag.MSG_REF, 0, 63)
    date_time(reads)
    if acknowledgment:
        reads.number(tag.LOGICAL_ACK, 0, 1)
    else:
        reads.say(tag.LOGICAL_ACK, 1)
    message_data(reads, table)


def protected_message(reads, table):
    if reads.take(1):
        raise Bad
    algorithm, there = reads.take(1), reads.take(1)
    if algorithm:
        reads.marks.add(4)
        reads.string(reads.length() * 8)
    if there:
        with reads.inner(reads.length()):
            message(reads, table)
    else:
        reads.say(tag.EMPTY, 1)
    try:
        place = reads.at
        bits = reads.length()
        first = reads.string(bits)
        if bits:
            reads.say(tag.INTEGRITY_CHECK, first, bits, place)
    except Ended:
        reads.cut = True
    except Bad:
        reads.marks.add(7)


def forward_body(reads, down, up):
    date_time(reads)
    reads.text(tag.AIRCRAFT_ID, 2, 8)
    reads.span(tag.AIRCRAFT_ADDRESS, 24)
    table = down if reads.number(tag.CARRIED_DIRECTION, 0, 1) else up
    bits = reads.length()
    before = len(reads.records)
    if bits > reads.left:
        raise Ended
    try:
        with reads.inner(bits):
            message_data(reads, table)
    except Bad:
        del reads.records[before:]
        reads.marks.add(7)


def forward(reads, down, up):
    try:
        with reads.dropped_if_bad():
            forward_body(reads, down, up)
    except Ended:
        reads.cut = True
    except Bad:
        reads.marks.add(7)


def pdus(reads, given, down, up):
    uplink = ["downlink", "uplink"].index(given["direction"])
    reads.say(tag.DIRECTION, uplink)
    if reads.extended(tag.PDU):
        place = reads.at
        if reads.take(1):
            reads.string(reads.length() * 8)
        else:
            reads.take(6)
        reads.say(tag.EXTENSION_INDEX, given["extension_index"], 0, place)
        return
    kind = reads.number(tag.PDU, 0, 5 if uplink else 3)
    if kind == 0:
        reason(reads, tag.USER_ABORT_REASON, 12)
    elif kind == 1:
        reason(reads, tag.PROVIDER_ABORT_REASON, 7)
    elif kind == 4:
        forward(reads, down, up)
    elif kind == 5:
        reason(reads, tag.FORWARD_RESPONSE, 2)
    else:
        if kind == 2 and not uplink and reads.take(1):
            reads.number(tag.MODE, 0, 1)
        protected_message(reads, up if uplink else down)


def applications(reads, t):
    for place in range(reads.ranged(1, 256)):
        reads.say(t, place + 1)
        reads.number(tag.AE_QUALIFIER, 0, 255)
        reads.number(tag.AP_VERSION, 1, 255)


def logon_request(reads):
    _, air_only, _, departure, destination, etd = [reads.take(1) for _ in range(6)]
    reads.text(tag.FLIGHT_ID, 2, 8)
    reads.span(tag.RDP, 40)
    if reads.take(1):
        reads.span(tag.ARS, 24)
    place = reads.at
    reads.span(tag.LOC_SYS_NSEL_TSEL, reads.ranged(10, 11) * 8, place)
    if air_only:
        applications(reads, tag.AIR_ONLY_INITIATED)
    if departure:
        reads.text(tag.AIRPORT_DEPARTURE, 4, 4)
    if destination:
        reads.text(tag.AIRPORT_DESTINATION, 4, 4)
    if etd:
        date(reads, tag.ETD_YEAR)
        reads.number(tag.ETD_HOURS, 0, 23)
        reads.number(tag.ETD_MINUTES, 0, 59)


def cm_ground(reads, given):
    reads.take(1)
    kind = reads.number(tag.CM_GROUND_PDU, 0, 5)
    if kind < 2:
        reads.take(1)
        if reads.take(1):
            applications(reads, tag.GROUND_ONLY_INITIATED)
    elif kind == 3:
        logon_request(reads)
    elif kind == 4:
        reason(reads, tag.CM_ABORT_REASON, 9)
    else:
        reads.number(tag.CM_FORWARD_RESPONSE, 0, 2)


def cm_logon(reads, given):
    reads.take(1)
    kind = reads.number(tag.CM_AIRCRAFT_PDU, 0, 2)
    if kind == 0:
        logon_request(reads)
    elif kind == 1:
        reads.number(tag.CONTACT_RESPONSE, 0, 1)
    else:
        reason(reads, tag.CM_ABORT_REASON, 9)


def release(reads, t):
    if reads.take(1):
        reads.marks.add(2)
    elif not reads.take(1):
        reads.say(t, 0, 2)
    elif not reads.extended(t) and reads.number(t, 0, 31) not in (0, 1, 30):
        reads.marks.add(1)  # by 01's list; the Rust has no name for it


def abort(reads):
    if reads.take(1):
        reads.marks.add(2)
        return
    diagnostic = reads.take(1)
    reason(reads, tag.ABORT_SOURCE, 1)
    if diagnostic and not reads.extended(tag.ABORT_DIAGNOSTIC) and reads.number(tag.ABORT_DIAGNOSTIC, 0, 7) > 5:
        reads.marks.add(1)


def acse(reads, given):
    if reads.extended(tag.ACSE_PDU):
        return
    kind = reads.number(tag.ACSE_PDU, 0, 7)
    try:
        if kind < 2:
            reads.marks.add(3)
        elif kind == 4:
            abort(reads)
        else:
            release(reads, [tag.RELEASE_REQUEST_REASON, tag.RELEASE_RESPONSE_REASON][kind - 2])
    except Ended:
        reads.cut = True


WITHOUT_TABLES = {("cm", "1"): cm_ground, ("cm", "0"): cm_logon, ("acse", "-"): acse}


def retold(case, given, watched):
    """End, reach, marks and records of an accepted reading."""
    reads = Along(case.frame, watched)
    if (case.entry, case.direction) in WITHOUT_TABLES:
        WITHOUT_TABLES[case.entry, case.direction](reads, given)
    else:
        pdus(reads, given, case.down, case.up)
    end, reach = reads.done()
    said_end, said_reach, _ = watched.split(";")[0].split()
    # The reading alone; that of parse_apdu may follow one that ran out, or that took more.
    if case.entry != "apdu" and (end, reach) != (said_end, int(said_reach)):
        raise SystemExit(f"{end} {reach}, the Rust's reads say {said_end} {said_reach}")
    return said_end, int(said_reach), sum(1 << (mark - 1) for mark in reads.marks), reads.records
