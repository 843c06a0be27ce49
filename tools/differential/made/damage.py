"""Damaged copies of good frames."""


def flip_bits(random, frame, other):
    octets = bytearray(frame)
    for _ in range(random.choice([1, 1, 2, 3])):
        at = random.randrange(len(octets) * 8)
        octets[at // 8] ^= 128 >> at % 8
    return bytes(octets)


def swap_octets(random, frame, other):
    octets = bytearray(frame)
    a, b = random.randrange(len(octets)), random.randrange(len(octets))
    octets[a], octets[b] = octets[b], octets[a]
    return bytes(octets)


def insert_octet(random, frame, other):
    at = random.randint(0, len(frame))
    return frame[:at] + random.randbytes(1) + frame[at:]


def drop_octet(random, frame, other):
    at = random.randrange(len(frame))
    return frame[:at] + frame[at + 1:]


def take_tail(random, frame, other):
    """The front of one frame and the tail of another."""
    return frame[: random.randint(0, len(frame))] + other[random.randint(0, len(other)):]


def noise_behind(random, frame, other):
    return frame[: random.randint(0, len(frame))] + random.randbytes(random.randint(0, 20))


WAYS = [flip_bits, flip_bits, swap_octets, insert_octet, drop_octet, take_tail, noise_behind]


def damaged(random, frame, other):
    return random.choice(WAYS)(random, frame, other) if frame else other
