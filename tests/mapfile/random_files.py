"""Random map files: sound ones with many ties, credits and links sent again, and damaged ones."""

import struct

from make_cases import tool

COSTS = [
    lambda rng: rng.randint(0, 3),
    lambda rng: rng.randint(-1, 4),
    lambda rng: rng.randint(-20, 60),
    lambda rng: rng.choice([-(2**31), -1, 0, 1, 2**31 - 1]),
    lambda rng: rng.randint(2**31 - 9, 2**31 - 1),
]
PATTERNS = [
    0x0000000000000000,
    0x8000000000000000,
    0x0000000000000001,
    0x000FFFFFFFFFFFFF,
    0x3FF0000000000000,
    0x4340000000000000,
    0x7FEFFFFFFFFFFFFF,
    0x7FF0000000000000,
    0x7FF0000000000001,
    0x7FF8000000000000,
    0xBFF0000000000000,
    0xFFF0000000000000,
    0xFFF8000000000001,
]


def as_bits(value):
    """The pattern of an f64."""
    return struct.unpack("<Q", struct.pack("<d", value))[0]


F64_COSTS = [
    lambda rng: as_bits(float(rng.randint(0, 3))),
    lambda rng: as_bits(rng.randint(0, 40) / 10),
    lambda rng: as_bits(rng.choice([0.0, 5e-324, 0.1, 1.0, 2.0**53, 1.7976931348623157e308, float("inf")])),
    lambda rng: as_bits(rng.random() * 10 ** rng.randint(-9, 9)),
    lambda rng: rng.choice(PATTERNS),
]


def sound_records(rng):
    """The records of a sound file."""
    f64 = rng.random() < 0.3
    bound = rng.choice([0, 1, 2, 3, 4, 5, 6, 8, 12]) if rng.random() < 0.97 else rng.randint(13, 64)
    records = [tool.record(tool.HEAD, bound, rng.random() < 0.6, f64)]
    absent = [i for i in range(bound) if rng.random() < rng.choice([0, 0, 0.2])]
    records += [tool.record(tool.ABSENT, i) for i in absent]
    present = [i for i in range(bound) if i not in absent]
    cost = rng.choice(F64_COSTS if f64 else COSTS)
    for _ in range(rng.randint(0, 3 * bound) if present else 0):
        ends = rng.choice(present), rng.choice(present)
        if f64:
            records.append(tool.record(tool.F64_LINK, *ends, cost(rng), rng.random() < 0.8))
        else:
            records.append(tool.record(tool.LINK, *ends, cost(rng)))
    engine = rng.choice([6, 7, 7, 7]) if f64 else rng.randint(1, 6)
    source, target = (rng.choice(present) if present and rng.random() < 0.9 else rng.randint(0, bound + 1) for _ in "ab")
    records.append(tool.record(tool.ASK, engine, source, target))
    return records


def sound(rng):
    """A sound file."""
    return b"".join(sound_records(rng))


def damaged(rng):
    """A file with one or two wounds; now and then it stays sound."""
    records = sound_records(rng)
    for _ in range(rng.randint(1, 2)):
        wound = rng.randrange(7)
        at = rng.randrange(len(records))
        if wound == 0:
            records[at] = records[at][: rng.randrange(len(records[at]) or 1)]
        elif wound == 1:
            byte = rng.randrange(len(records[at]) or 1)
            records[at] = records[at][:byte] + bytes([rng.choice([0, 1, 2, 3, 5, 64, 65, 255])]) + records[at][byte + 1 :]
        elif wound == 2:
            records.insert(at, rng.choice(sound_records(rng)))
        elif wound == 3:
            records.pop(at)
            records = records or [b""]
        elif wound == 4:
            records.append(bytes(rng.randrange(256) for _ in range(rng.randint(1, 5))))
        elif wound == 5:
            records.insert(at, records.pop())
        else:
            records[at] += b"\x00"
    return b"".join(records)
