#!/usr/bin/env python3
"""Generator: the vectors of the program `key_vectors`, its stdin: hashes of keys, the segments that take them, and test keys."""
import random
import sys

import usage
from assignment_vectors import Assignment, Segment, pack_assignment
from key_vectors import murmur3
from vectors import CRATES

# Published values: tools/key_vectors.py is held to them before anything is written.
WIKIPEDIA = {
    b"test": 0xBA6BD213, b"Hello, world!": 0xC0363E43, b"The quick brown fox jumps over the lazy dog": 0x2E4FF723,
}
SHARED = {
    b"": 0, b"\x21": 0x72661CF4, b"\x21\x43": 0xA0F7B07A, b"\x21\x43\x65": 0x7E4A8634, b"\x21\x43\x65\x87": 0xF55B516B,
    b"\0": 0x514E28B7, b"\0\0": 0x30F4C306, b"\0\0\0": 0x85F0B427, b"\0\0\0\0": 0x2362F9DE, b"\xff\xff\xff\xff": 0x76293B50,
    b"abc": 0xB3DD93FA,
    b"abcdbcdecdefdefgefghfghighijhijkijkljklmklmnlmnomnopnopq": 0xEE925B90,
}
# of Pulsar's own tests, the low 31 bits
PULSAR = {
    b"k1": 2110152746, b"k2": 1479966664, b"key1": 462881061, b"key2": 1936800180, b"key01": 39696932, b"key02": 751761803,
}

HALVES = (Segment(0, 0, 0x7FFF, ()), Segment(1, 0x8000, 0xFFFF, ()))
WHOLE = (Segment(4, 0, 0xFFFF, ()), Segment(5, 0, 0xFFFF, ()))
NAME = b"sat"
HASH = murmur3(NAME) % 2**16


def word(data):
    return data.decode() if data.isalnum() else "0x" + data.hex()


def hashed(keys):
    return [f"hash {word(key)}" for key in keys]


def asked(key, *segments, epoch=1):
    return of_bytes(key, pack_assignment(Assignment(epoch, segments)))


def of_bytes(key, data):
    return f"segment {word(key)} 0x{data.hex()}"


def published():
    yield "# ==== published values of MurmurHash3_x86_32 with seed 0"
    yield "# Wikipedia, MurmurHash"
    yield from hashed(WIKIPEDIA)
    yield "# Ian Boyd's list, which many ports share"
    yield from hashed(SHARED)
    yield "# Apache Pulsar's tests of Murmur3_32Hash, whose values are the low 31 bits of these"
    yield from hashed(PULSAR)


def reckoned(rng):
    yield "# ==== not published, reckoned by tools/key_vectors.py: keys of every length to 17, and of 65,535 bytes"
    yield from hashed(rng.randbytes(length) for length in range(1, 18))
    yield "hash " + "a" * 65535


def refusals():
    yield "# ==== a key's segment, reckoned: the longest key, 32 before 20, 20"
    whole = pack_assignment(Assignment(1, WHOLE))
    yield of_bytes(b"a" * 65535, whole)
    yield of_bytes(b"a" * 65536, whole[1:])
    yield "# cut short, a byte too many, ids that fall, a reversed range, buckets that share a value, no bytes"
    yield of_bytes(NAME, whole[:-1])
    yield of_bytes(NAME, whole + b"\0")
    yield asked(NAME, *reversed(WHOLE))
    yield asked(NAME, Segment(7, 2, 1, ()))
    yield asked(NAME, Segment(7, 0, 9, ((0, 5), (5, 6))))
    yield of_bytes(NAME, b"")


def limits():
    yield f"# ==== the hash of {NAME.decode()} is {HASH:04x}: at the ends of a range and of a bucket, and beside them"
    for start, end in ((HASH, HASH), (HASH, 0xFFFF), (0, HASH), (HASH + 1, 0xFFFF), (0, HASH - 1)):
        yield asked(NAME, Segment(7, start, end, ()))
        yield asked(NAME, Segment(7, 0, 0xFFFF, ((start, end),)))
    below, above, at = (0, HASH - 1), (HASH + 1, 0xFFFF), (HASH, HASH)
    yield "# a bucket outside the range has it; none of the buckets; one of them; the next segment; no segment at all"
    yield asked(NAME, Segment(7, *below, (at,)))
    yield asked(NAME, Segment(7, 0, 0xFFFF, (above, below)))
    yield asked(NAME, Segment(7, 0, 0xFFFF, (above, at)))
    yield asked(NAME, Segment(7, 0, 0xFFFF, (above, below)), Segment(8, *at, ()), Segment(9, 0, 0xFFFF, ()))
    yield asked(NAME)


def lists(rng):
    yield "# ==== halves, and two whole ranges: the lower id; 145 segments; lists at random"
    for key in (b"a", b"b", b"c", b"delta", b"Hello", b"x", b""):
        yield asked(key, *HALVES)
        yield asked(key, *WHOLE)
        yield asked(key, *(Segment(10 * k, 450 * k, 450 * k + 449, ()) for k in range(145)))
    for number in range(60):
        yield asked(b"k%d" % number, *random_segments(rng), epoch=number)


def wanted(number, *segments):
    return f"key_in 0x{pack_assignment(Assignment(1, segments)).hex()} {number}"


def test_keys(rng):
    yield "# ==== the key that has a hash: of the published hashes of four bytes, at the ends, of one bit, at random"
    yield from (f"key {value}" for key, value in (WIKIPEDIA | SHARED).items() if len(key) == 4)
    yield from (f"key {value}" for value in (0, 0xFFFF, 0x10000, 0xFFFFFFFF))
    yield from (f"key {1 << bit}" for bit in range(32))
    yield from (f"key {rng.getrandbits(32)}" for _ in range(20))
    yield "# ==== a key that falls in a segment: no buckets; none; another id; both ends of the key space"
    yield wanted(7, Segment(7, 0x4000, 0x7FFF, ()))
    yield wanted(7)
    yield wanted(8, Segment(7, 0, 0xFFFF, ()), Segment(9, 0, 0xFFFF, ()))
    yield wanted(2**64 - 1, Segment(0, 0, 0, ()), Segment(2**64 - 1, 0xFFFF, 0xFFFF, ()))
    yield wanted(0, Segment(0, 0, 0, ()), Segment(2**64 - 1, 0xFFFF, 0xFFFF, ()))
    yield "# the bucket lies inside, before, over the start, over the end, behind, around; it ends at the start, it is the end"
    spans = [(0x4100, 0x41FF), (0, 0x3FFF), (0x3F00, 0x4100), (0x7F00, 0x8100), (0x8000, 0xFFFF), (0, 0xFFFF)]
    spans += [(0, 0x4000), (0x7FFF, 0x7FFF)]
    yield from (wanted(7, Segment(7, 0x4000, 0x7FFF, (span,))) for span in spans)
    yield "# of several buckets the lowest that meets the range, in any order; of several segments the one asked for"
    yield wanted(7, Segment(7, 0x4000, 0x7FFF, ((0x6000, 0x60FF), (0, 0x3FFF), (0x5000, 0x50FF), (0x9000, 0x90FF))))
    yield wanted(7, Segment(7, 0x4000, 0x7FFF, ((0, 0x3FFF), (0x9000, 0x90FF))))
    yield wanted(7, Segment(3, 0, 0xFFFF, ()), Segment(7, 0x4000, 0x7FFF, ()), Segment(8, 0x5000, 0x5FFF, ()))
    yield "# 20: cut short, a byte too many, ids that fall, a reversed range, buckets that share a value, no bytes"
    whole = pack_assignment(Assignment(1, WHOLE))
    yield from (f"key_in 0x{data.hex()} 4" for data in (whole[:-1], whole + b"\0", b""))
    yield wanted(4, *reversed(WHOLE))
    yield wanted(7, Segment(7, 2, 1, ()))
    yield wanted(7, Segment(7, 0, 9, ((0, 5), (5, 6))))
    yield "# ==== keys that fall in segments of lists at random"
    for _ in range(40):
        yield wanted(rng.randrange(1, 8), *random_segments(rng))


def random_segments(rng):
    segments, number = [], 0
    for _ in range(rng.randrange(6)):
        number += rng.randrange(1, 4)
        start, end = sorted((rng.randrange(0x10000), rng.randrange(0x10000)))
        cuts = sorted(rng.sample(range(0x10000), 2 * rng.choice((0, 0, 1, 2, 3, 4))))
        buckets = list(zip(cuts[::2], cuts[1::2]))
        rng.shuffle(buckets)
        segments.append(Segment(number, start, end, tuple(buckets)))
    return segments


def made():
    for key, value in (WIKIPEDIA | SHARED).items():
        assert murmur3(key) == value, key
    for key, value in PULSAR.items():
        assert murmur3(key) % 2**31 == value, key
    rng = random.Random("key vectors")
    lines = [*published(), *reckoned(rng), *refusals(), *limits(), *lists(rng), *test_keys(rng)]
    return {CRATES / "test_keys" / "stdin": "\n".join(lines) + "\n"}


if __name__ == "__main__":
    sys.exit(usage.generate(__doc__, made))
