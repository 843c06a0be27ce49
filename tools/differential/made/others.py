"""Context Management and association control messages."""

from .cpdlc import reason


def short_tsap(make):
    if make.flag():
        make.noise(24)
    make.noise(8 * make.number(10, 11))


def long_tsap(make):
    make.noise(40)
    short_tsap(make)


def applications(make, with_address):
    count = make.random.randint(1, 256) if make.chance(0.05) else make.random.randint(1, 4)
    make.raw(count - 1, 8)
    for _ in range(count):
        make.number(0, 255)
        make.number(1, 255)
        if with_address:
            (short_tsap if make.flag() else long_tsap)(make)


def logon_request(make):
    """The addressed applications and the facility are not supplied, so they are seldom there."""
    ground, air_only, facility = make.flag(0.03), make.flag(), make.flag(0.03)
    departure, destination, etd = make.flag(), make.flag(), make.flag()
    make.text(2, 8)
    long_tsap(make)
    if ground:
        applications(make, True)
    if air_only:
        applications(make, False)
    if facility:
        make.text(4, 8)
    for airport in (departure, destination):
        if airport:
            make.text(4, 4)
    if etd:
        for lo, hi in ((1996, 2095), (1, 12), (1, 31), (0, 23), (0, 59)):
            make.number(lo, hi)


def logon_response(make):
    air, ground = make.flag(0.05), make.flag(0.8)
    if air:
        applications(make, True)
    if ground:
        applications(make, False)


def cm_ground(make):
    make.extension()
    kind = make.any_of(6, 7) if make.goes_wild() else make.any_of(0, 1, 3, 3, 4, 5)
    make.raw(kind, 3)
    if kind < 2:
        logon_response(make)
    elif kind == 3:
        logon_request(make)
    elif kind == 4:
        reason(make, 9)
    else:
        make.number(0, 2)


def cm_logon(make):
    make.extension()
    kind = 3 if make.goes_wild() else make.any_of(0, 0, 0, 1, 2)
    make.raw(kind, 2)
    if kind == 0:
        logon_request(make)
    elif kind == 1:
        make.flag()
    else:
        reason(make, 9)


def acse(make):
    make.extension()
    kind = make.any_of(5, 7) if make.goes_wild() else make.any_of(0, 1, 2, 2, 3, 3, 4, 4, 4)
    make.raw(kind, 3)
    if kind in (0, 1):
        make.noise(make.random.randint(0, 40))
    elif kind in (2, 3):
        if not make.extension() and make.flag(0.8) and not make.extension():
            make.raw(make.random.getrandbits(5) if make.goes_wild() else make.any_of(0, 1, 30), 5)
    elif not make.extension():
        diagnostic = make.flag()
        reason(make, 1)
        if diagnostic:
            reason(make, 5)


# By entry and direction.
MADE = {("cm", "1"): cm_ground, ("cm", "0"): cm_logon, ("acse", "-"): acse}
