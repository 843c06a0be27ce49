"""CPDLC messages in both directions over lent tables."""

from .bits import width
from .places import argument, coordinates, degrees, procedure, published, runway

TABLE_SIZES = [1, 2, 3, 4, 5, 8, 9, 16, 17, 64, 65, 114, 128, 129, 237, 255, 256]


def table(random):
    """A lent table: 1 to 256 entries, mostly bytes 0 to 17."""
    size = random.choice(TABLE_SIZES) if random.random() < 0.5 else random.randint(1, 256)
    top = random.choice([0, 16, 16, 16, 16, 17, 17, 255])
    return bytes(random.randint(0, top) for _ in range(size))


def date_time(make):
    for lo, hi in ((1996, 2095), (1, 12), (1, 31), (0, 23), (0, 59), (0, 59)):
        make.number(lo, hi)


def leg(make):
    kind = make.any_of(5, 6, 7) if make.goes_wild() else 3 if make.chance(0.01) else make.any_of(0, 1, 2, 4)
    make.raw(kind, 3)
    if kind == 0:
        published(make)
    elif kind == 1:
        coordinates(make)
    elif kind == 4:
        make.text(2, 7)
    else:
        for _ in range(2 if kind == 2 else 1):
            published(make)
            degrees(make)
        if kind == 3:
            make.noise(15)


def clearance(make):
    present = [make.flag(p) for p in (0.5, 0.5, 0.5, 0.3, 0.5, 0.3, 0.3, 0.6, 0.1)]
    for is_there, write in zip(present, [airport, airport, runway, procedure, runway, procedure, procedure, route]):
        if is_there:
            write(make)


def airport(make):
    make.text(4, 4)


def route(make):
    count = make.random.randint(1, 128) if make.chance(0.1) else make.random.randint(1, 5)
    make.raw(count - 1, 7)
    for _ in range(count):
        leg(make)


def message_data(make, lent):
    constrained = make.flag(0.3)
    count = make.number(1, 5)
    for _ in range(count):
        index = make.random.randrange(len(lent))
        bits = width(len(lent) - 1)
        if make.goes_wild() and make.chance(0.3) and bits:
            index = make.random.getrandbits(bits)
        make.raw(index, bits)
        if index < len(lent):
            argument(make, lent[index])
    if constrained and not make.extension() and make.flag(0.9):
        for _ in range(make.number(1, 2)):
            clearance(make)


def message(make, lent):
    reference, acknowledgment = make.flag(), make.flag(0.3)
    make.number(0, 63)
    if reference:
        make.number(0, 63)
    date_time(make)
    if acknowledgment:
        make.flag()
    message_data(make, lent)


def bit_string(make, most=None):
    most = most or make.any_of(0, 0, 8, 16, 32, 64, 127, 128, 129, 300)
    count = make.random.randint(0, most)
    make.length(count)
    make.noise(count)


def protected_message(make, lent):
    make.raw(int(make.goes_wild() and make.chance(0.2)), 1)
    algorithm, is_there = make.flag(0.1), make.flag(0.95)
    if algorithm:
        count = make.any_of(0, 1, 3, 9, 130)
        make.length(count)
        make.noise(count * 8)
    if is_there:
        make.inner(lambda: message(make, lent))
    bit_string(make)


def forward(make, down, up):
    date_time(make)
    make.text(2, 8)
    make.noise(24)
    lent = down if make.flag() else up
    make.inner(lambda: message_data(make, lent))


def small_number(make):
    """A normally small number in either form."""
    if make.flag():
        count = make.random.randint(0, 12)
        make.length(count)
        make.noise(count * 8)
    else:
        make.noise(6)


def reason(make, hi):
    if not make.extension():
        make.number(0, hi)


def pdu(make, uplink, down, up):
    """A message in a direction, mostly a send."""
    if make.extension():
        small_number(make)
        return
    kind = make.any_of(0, 1, 2, 2, 3, 3, 3, *([4, 4, 4, 5] if uplink else []))
    make.raw(kind, 3 if uplink else 2)
    if kind < 2:
        reason(make, [12, 7][kind])
    elif kind == 4:
        forward(make, down, up)
    elif kind == 5:
        reason(make, 2)
    else:
        if kind == 2 and not uplink and make.flag():
            make.flag()
        protected_message(make, up if uplink else down)
