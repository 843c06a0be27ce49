"""Places, and the other arguments of elements, by the bytes of document 01's list."""


def angle(make, thousandths, degrees):
    form = make.number(0, 2) if not make.goes_wild() else make.number(3, 3)
    if form == 0:
        make.number(0, thousandths)
    elif form == 1:
        make.number(0, degrees)
        make.number(0, 5999)
    else:
        make.number(0, degrees)
        make.number(0, 59)
        make.number(0, 59)
    make.raw(make.random.getrandbits(1), 1)


def coordinates(make):
    latitude, longitude = make.flag(0.7), make.flag(0.7)
    if latitude:
        angle(make, 90000, 89)
    if longitude:
        angle(make, 180000, 179)


def named(make, most):
    has_coordinates = make.flag(0.4)
    make.text(1, most)
    if has_coordinates:
        coordinates(make)


def position(make):
    kind = make.any_of(4, 5, 7) if make.goes_wild() else make.any_of(0, 1, 2, 3)
    make.raw(kind, 3)
    if kind == 0:
        named(make, 5)
    elif kind == 1:
        named(make, 4)
    elif kind == 2:
        make.text(4, 4)
    else:
        coordinates(make)


def published(make):
    if make.flag():
        named(make, 4)
    else:
        named(make, 5)


SPEEDS = [(0, 400), (0, 800), (0, 2000), (0, 4000), (-50, 2000), (-100, 4000), (500, 4000), (0, 400)]
LEVELS = [(-60, 7000), (-30, 25000), (30, 700), (100, 2500)]
FREQUENCIES = [(2850, 28000), (23600, 27398), (9000, 15999)]


def speed(make):
    make.number(*SPEEDS[make.number(0, 6)])


def level(make):
    make.number(*LEVELS[make.number(0, 3)])


def degrees(make):
    make.flag()
    make.number(1, 360)


def frequency(make):
    kind = make.number(0, 3)
    if kind < 3:
        make.number(*FREQUENCIES[kind])
    for _ in range(12 if kind == 3 else 0):
        make.number(0, 9)


def code(make):
    make.noise(12)


def name(hi):
    def write(make):
        if not make.extension():
            make.number(0, hi)
    return write


def three(make):
    for _ in range(3):
        name(8)(make)


def procedure(make):
    transition = make.flag()
    make.number(0, 2)
    make.text(1, 20)
    if transition:
        make.text(1, 5)


def runway(make):
    make.number(1, 36)
    make.number(0, 3)


def departure_clearance(make):
    make.flag(0.3)
    make.flag(0.3)
    make.text(2, 8)
    position(make)


# By the byte; what has no reader gets a few bits.
ARGUMENTS = [
    lambda make: None, position, speed, name(8), three, level, degrees, frequency, code, name(5), name(11), name(4),
    name(8), procedure, runway, coordinates, departure_clearance,
]


def argument(make, byte):
    if byte < len(ARGUMENTS):
        ARGUMENTS[byte](make)
    else:
        make.noise(make.random.randint(0, 9))
