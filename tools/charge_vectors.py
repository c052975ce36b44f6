#!/usr/bin/env python3
"""Judge and generator: what a holding of a segment costs (02 l), reckoned for tools/vectors.py; run by itself, it makes vectors/charge.log.

A cost is a fraction of a euro's millionths: so much of the key space, for so many hours, at the rate.
"""
import random
import sys
from fractions import Fraction

import logs
import usage
from assignment_vectors import Bytes, Malformed, Segment, pack_segment, take_segment
from name_vectors import Refused

SPACE, HOUR = 65536, 3600
DIVISOR = 235929600
LIMIT = 2**64
assert DIVISOR == SPACE * HOUR


def one_record(data):
    """The one record that is lent; nothing is left over."""
    data = Bytes(data)
    try:
        segment = take_segment(data)
    except Malformed:
        raise Refused(20) from None
    if data.at != len(data.data):
        raise Refused(20)
    return segment


def values(segment):
    """How many values the segment holds."""
    return sum(len(range(start, end + 1)) for start, end in segment.buckets or [(segment.start, segment.end)])


def exact(segment, seconds, rate):
    return Fraction(values(segment), SPACE) * Fraction(seconds, HOUR) * rate


def charged(data, seconds, rate, remainder):
    """The charge and the next remainder."""
    segment = one_record(data)
    cost = exact(segment, seconds, rate) + Fraction(remainder, DIVISOR)
    if remainder >= DIVISOR or cost * DIVISOR >= LIMIT:
        raise Refused(36)
    whole = cost.numerator // cost.denominator
    rest = (cost - whole) * DIVISOR
    assert rest.denominator == 1 and rest < DIVISOR
    return whole, rest.numerator


def charge(*words):
    return "charged {} remainder {}".format(*charged(*words))


COMMANDS = {"charge": ("bnnn", charge)}

# ---- the vectors

ALL = Segment(5, 0, 0xFFFF, ())
ONE = Segment(5, 9, 9, ())
QUARTER = Segment(2**64 - 1, 0x4000, 0x7FFF, ())
MOST = LIMIT - 1


def held(segment, seconds, rate, remainder=0):
    return logs.line("charge", pack_segment(segment), seconds, rate, remainder)


def of_bytes(data, seconds=1, rate=1, remainder=0):
    return logs.line("charge", data, seconds, rate, remainder)


def buckets(*ranges):
    return Segment(7, 0x100, 0x1FF, ranges)


def prices():
    yield "# ==== the whole key space for an hour costs the rate; a quarter, a quarter of it; one value, what is left"
    yield from (held(segment, HOUR, 1000000) for segment in (ALL, QUARTER, ONE))
    yield from (held(segment, 1, 1) for segment in (ALL, QUARTER, ONE))
    yield held(ALL, 86400, 12345678)
    yield held(QUARTER, 3601, 2000003, 17)
    yield "# ==== buckets are what is held: one, several in any order, side by side, outside the range, all values"
    yield held(buckets((0x100, 0x100)), 1, 1)
    yield held(buckets((0x1F0, 0x1FF), (0x100, 0x10F), (0x180, 0x180)), 1, 1)
    yield held(buckets((0x110, 0x11F), (0x100, 0x10F)), 1, 1)
    yield held(buckets((0, 0xFF), (0x200, 0xFFFF)), 1, 1)
    yield held(buckets((0, 0xFFFF)), HOUR, 7)
    yield "# more buckets than a list has room for, rising, then not"
    many = [(100 * k, 100 * k + k % 50) for k in range(600)]
    yield held(buckets(*many), 1, 1)
    yield held(buckets(*many[1:], many[0]), 1, 1)


def malformed():
    good = pack_segment(buckets((0x100, 0x10F), (0x110, 0x11F)))
    yield "# ==== 20: every length but the record's own"
    yield from (of_bytes(good[:length]) for length in range(len(good)))
    yield of_bytes(good)
    yield of_bytes(good + b"\0")
    yield of_bytes(pack_segment(ALL) + b"\0")
    yield of_bytes(2 * pack_segment(ALL))
    yield "# a reversed range, also beside buckets; a reversed bucket; buckets that share a value"
    yield held(Segment(5, 10, 9, ()), 1, 1)
    yield held(Segment(5, 10, 9, ((3, 4),)), 1, 1)
    yield held(buckets((0x101, 0x100)), 1, 1)
    yield held(buckets((0x100, 0x10F), (0x10F, 0x11F)), 1, 1)
    yield held(buckets((0x110, 0x11F), (0x100, 0x10F), (0x115, 0x115)), 1, 1)
    yield "# it is tested first"
    yield of_bytes(good[:-1], MOST, MOST, MOST)
    yield of_bytes(b"", 0, 0, DIVISOR)


def too_large():
    yield "# ==== 36: product and remainder just below 2^64, and 2^64"
    yield from (held(ONE, seconds, MOST // seconds) for seconds in (1, MOST, 2**32))
    yield held(ONE, 2**32, 2**32)
    yield from (held(ONE, 1, MOST - rest, rest + more) for rest in (0, 1, DIVISOR - 2) for more in (0, 1))
    yield from (held(ALL, 2**48 - 1, 1, rest) for rest in (65535, 65536))
    yield from (held(buckets((0, 15), (20, 20)), MOST // 17, 1, rest) for rest in (0, 1))
    yield "# products that are 0 or small in their low 64 or 128 bits"
    yield from (held(ALL, seconds, rate) for seconds, rate in ((2**48, 1), (1, 2**48), (2**24, 2**24), (2**63, 2)))
    yield from (held(ALL, seconds, rate) for seconds, rate in ((2**56, 2**56), (2**63, 2**63), (MOST, MOST)))
    yield from (held(ONE, seconds, rate) for seconds, rate in ((MOST, MOST), (2**63, 2), (2**63, 2**63)))
    yield "# a factor 0 makes the product 0, however large the others are"
    yield from (held(ALL, seconds, rate, 5) for seconds, rate in ((0, 0), (MOST, 0), (0, MOST)))
    yield "# a remainder just below the divisor, the divisor, the most; with a product of 0 too"
    for seconds, rate in ((1, 1), (MOST, 0), (0, 1)):
        yield from (held(ONE, seconds, rate, remainder) for remainder in (DIVISOR - 1, DIVISOR, MOST))


def account(holdings):
    """The charges of one segment: each is lent the remainder of the last that was not refused."""
    remainder, total, charges = 0, Fraction(0), 0
    for segment, seconds, rate in holdings:
        yield held(segment, seconds, rate, remainder)
        try:
            charge, remainder = charged(pack_segment(segment), seconds, rate, remainder)
        except Refused:
            continue
        total, charges = total + exact(segment, seconds, rate), charges + charge
    assert charges == total.numerator // total.denominator


def accounts(rng):
    yield "# ==== accounts of one segment, from remainder 0: the charges add up to the exact total rounded down"
    yield "# a third of a millionth each"
    yield from account([(ALL, 1200, 1)] * 7)
    yield "# the same minute again and again; a holding that is refused leaves the remainder"
    yield from account([(QUARTER, 60, 999999), (QUARTER, MOST, 999999)] * 8)
    yield "# buckets that change from holding to holding"
    for _ in range(5):
        yield from account([random_holding(rng, 5) for _ in range(12)])
    yield "# ==== holdings at random"
    for number in range(60):
        yield held(*random_holding(rng, number), rng.choice((0, rng.randrange(DIVISOR), rng.randrange(2 * DIVISOR))))


def random_holding(rng, number):
    start, end = sorted((rng.randrange(SPACE), rng.randrange(SPACE)))
    cuts = sorted(rng.sample(range(SPACE), 2 * rng.choice((0, 0, 1, 2, 3, 4))))
    ranges = list(zip(cuts[::2], cuts[1::2]))
    rng.shuffle(ranges)
    seconds, rate = rng.getrandbits(rng.choice((12, 20, 40))), rng.getrandbits(rng.choice((10, 24)))
    return Segment(number, start, end, tuple(ranges)), seconds, rate


def made():
    head = "# What holdings of segments cost, as a log of station, written and reckoned by tools/charge_vectors.py."
    return logs.made("charge", [head, *prices(), *malformed(), *too_large(), *accounts(random.Random("charge vectors"))])


if __name__ == "__main__":
    sys.exit(usage.generate(__doc__, made))
