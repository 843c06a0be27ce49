"""The fields whose raw values the program `raw_values` goes through, in its order.

A sweep: the table's byte, the bits before the field, the number of bits of the field, and the place of the record that holds its
number, 0 for none. Behind the field are zeros.
"""

ROOM = 384


def quantities():
    for byte, index, widths in (
        (2, 3, (9, 10, 11, 12, 12, 13, 12)),  # speeds
        (5, 2, (13, 15, 10, 12)),  # levels
        (6, 1, (9, 9)),  # degrees
        (7, 2, (15, 12, 13)),  # frequencies
    ):
        yield byte, "", index, 1
        for kind, bits in enumerate(widths):
            yield byte, f"{kind:0{index}b}", bits, 2


def names():
    """An extension bit and an index behind it; the three speed types have one behind the other."""
    for byte, bits, times in ((3, 4, 1), (4, 4, 3), (9, 3, 1), (10, 4, 1), (11, 3, 1), (12, 4, 1)):
        for k in range(times):
            before = "0" * (1 + bits) * k
            yield byte, before, 1, 0
            yield byte, before + "0", bits, k + 1


def digits():
    for k in range(4):
        yield 8, "000" * k, 3, k + 1
    for k in range(12):
        yield 7, "11" + "0000" * k, 4, 0
    yield 14, "", 6, 1
    yield 14, "000000", 2, 2


def texts():
    yield 1, "", 3, 1
    yield 1, "000", 1, 0
    yield 1, "000 0", 3, 0
    yield 1, "001", 1, 0
    yield 1, "001 0", 2, 0
    yield 13, "", 1, 0
    yield 13, "0", 2, 1
    yield 13, "0 00", 5, 0
    yield 13, "1 00 00000 0000000", 3, 0
    yield 16, "", 2, 0
    yield 16, "00", 3, 0
    yield 16, "00 000" + "0" * 14, 3, 2


def angle(byte, before, place, near, degrees):
    """`near` are the first bits of thousandths near the highest, `degrees` is a number of bits; the form's record is at `place`."""
    zeros = "0" * degrees
    yield byte, before, 2, place
    yield byte, before + "00" + near, 9, place + 1
    yield byte, before + "00" + "0" * (len(near) + 9), 1, place + 2
    yield byte, before + "01", degrees, place + 1
    yield byte, before + "01" + zeros, 13, place + 2
    yield byte, before + "10", degrees, place + 1
    yield byte, before + "10" + zeros, 6, place + 2
    yield byte, before + "10" + zeros + "000000", 6, place + 3


def coordinates():
    yield 15, "", 2, 0
    yield 15, "10 00", 17, 3
    yield 15, "01 00", 18, 3
    for presence, near, degrees in (("10", f"{90000 >> 9:08b}", 7), ("01", f"{180000 >> 9:09b}", 8)):
        for byte, before, place in (
            (15, "", 2),  # alone
            (1, "011", 3),  # a position
            (1, "000 1 000 0000000", 4),  # behind a fix
            (1, "001 1 00 0000000", 4),  # behind a navaid
            (16, "00 000" + "0" * 14 + "011", 4),  # of a departure clearance
        ):
            yield from angle(byte, before + presence, place, near, degrees)


def sweeps():
    for part in (quantities, names, digits, texts, coordinates):
        for byte, before, bits, place in part():
            yield byte, before.replace(" ", ""), bits, place


def case(byte, bits):
    """A downlink message of one element whose argument has these bits and zeros behind them; the rest of it is as low as can be."""
    inner = "0" * 45 + bits + "0" * (ROOM - len(bits))
    frame = "0 11 0 0 1 10".replace(" ", "") + f"{len(inner):014b}" + inner + "0" * 8
    frame += "0" * (-len(frame) % 8)
    return f"pdus 0 {byte:02x} 00 {int(frame, 2):0{len(frame) // 4}x} 8192"
