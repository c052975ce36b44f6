#!/usr/bin/env python3
"""Judge: the hash of a key, the segment that takes it, and test keys, reckoned for tools/vectors.py. tools/key_lines.py makes
the vectors.

The hash is the published algorithm over Python's numbers; a segment takes what is in the set of its range's values and,
where it has buckets, in theirs. The key of a hash is found from the last step to the first, a shift bit by bit and a
product by Python's own inverse, and hashed again.
"""
import usage
from assignment_vectors import Malformed, whole_assignment
from name_vectors import Refused

WORD = 2**32


def turned(number, bits):
    return (number << bits | number >> 32 - bits) % WORD


def scrambled(block):
    return turned(int.from_bytes(block, "little") * 0xCC9E2D51 % WORD, 15) * 0x1B873593 % WORD


def murmur3(key, seed=0):
    h = seed
    whole = len(key) // 4 * 4
    for at in range(0, whole, 4):
        h = (turned(h ^ scrambled(key[at:at + 4]), 13) * 5 + 0xE6546B64) % WORD
    if whole < len(key):
        h ^= scrambled(key[whole:])
    h ^= len(key) % WORD
    h = (h ^ h >> 16) * 0x85EBCA6B % WORD
    h = (h ^ h >> 13) * 0xC2B2AE35 % WORD
    return h ^ h >> 16


def taken(segment):
    """The hashes that a segment takes."""
    values = set(range(segment.start, segment.end + 1))
    if segment.buckets:
        values &= {value for start, end in segment.buckets for value in range(start, end + 1)}
    return values


def lent(data):
    try:
        return whole_assignment(data).segments
    except Malformed:
        raise Refused(20) from None


def segment(key, data):
    if len(key) > 65535:
        raise Refused(32)
    segments = lent(data)
    value = murmur3(key) % 2**16
    return str(min((segment.id for segment in segments if value in taken(segment)), default="none"))


def before_shift(number, bits):
    """The x with x ^ x >> bits == number, from its high bit down."""
    x = 0
    for place in reversed(range(32)):
        x |= (number >> place & 1 ^ x >> place + bits & 1) << place
    return x


def before_product(number, factor):
    return number * pow(factor, -1, WORD) % WORD


def key_of(value):
    h = before_product(before_shift(value, 16), 0xC2B2AE35)
    h = before_shift(before_product(before_shift(h, 13), 0x85EBCA6B), 16) ^ 4
    h = turned(before_product((h - 0xE6546B64) % WORD, 5), 32 - 13)
    h = before_product(turned(before_product(h, 0x1B873593), 32 - 15), 0xCC9E2D51)
    key = h.to_bytes(4, "little")
    assert murmur3(key) == value, value
    return "0x" + key.hex()


def key_in(data, number):
    values = [min(taken(segment), default=None) for segment in lent(data) if segment.id == number]
    return "none" if values in ([], [None]) else key_of(*values)


COMMANDS = {
    "hash": ("b", lambda key: f"{murmur3(key):08x}"), "segment": ("bb", segment),
    "key": ("n", key_of), "key_in": ("bn", key_in),
}


if __name__ == "__main__":
    usage.help_only(__doc__)
