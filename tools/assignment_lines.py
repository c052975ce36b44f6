#!/usr/bin/env python3
"""Generator: the vectors of packed assignments, deltas, the calls with an output and the intake, a part of crates/test_vectors/stdin.

The random ones come from one seed.

The values are put into bytes by tools/assignment_vectors.py, which judges what the program makes of them.
"""
import random
import sys

import usage
from assignment_vectors import Assignment, Delta, Segment, difference, join, name_of, number_field, pack_assignment, pack_delta, part_field
from assignment_vectors import segment_message, to_pb
from vectors import replaced

PARENT = b"topic://a/b/c"
PATH = b"a/b/c"
HIGHEST = (1 << 64) - 1


def shown(data):
    """Bytes as an argument: plain topics as they stand, all else in hexadecimal."""
    return data.decode() if data.startswith(b"topic://") and data.isascii() else "0x" + data.hex()


def line(*words):
    return " ".join(shown(word) if isinstance(word, bytes) else str(word) for word in words)


def half(number, *buckets):
    """A segment from 0 to 7fff."""
    return Segment(number, 0, 0x7FFF, buckets)


def points(count):
    """Buckets of one value each."""
    return tuple((value, value) for value in range(count))


def sheet(*segments, epoch=3):
    return pack_assignment(Assignment(epoch, segments))


def change(lost=(), gained=(), epoch=5):
    return pack_delta(Delta(epoch, lost, gained))


def cuts(name, data):
    return [line(name, data[:size]) for size in range(len(data))]


BARE = [half(number) for number in range(1, 147)]
# the longest delta of one change
LONGEST = Delta(5, list(range(1, 146)), [half(0, *points(506))])


# ---- packed assignments


def assignments():
    row_b, wide = sheet(half(0)), half(0, (0, 5), (6, 9))
    yield "# packed assignments: row B; none, and the ids at the limits; row B cut at every length, and with a byte behind it"
    yield line("assignment", row_b)
    yield line("assignment", sheet(epoch=HIGHEST))
    yield line("assignment", sheet(half(0), half(1), half(HIGHEST)))
    yield from cuts("assignment", row_b)
    yield line("assignment", row_b + b"\0")
    yield line("front", row_b)
    yield line("front", row_b + b"\0")
    yield line("front", row_b[:23])
    yield "# row H: what fits a slot and what does not"
    for segments in (BARE[:145], BARE, [half(0, *points(506))], [half(0, *points(507))]):
        yield line("assignment", sheet(*segments))
        yield line("front", sheet(*segments))
    yield line("front", sheet(half(0, *points(506))) + b"\xff" * 20)
    yield line("assignment", sheet(half(0, *points(506))) + b"\xff")
    yield "# ids that do not rise; ranges reversed; counts beyond what follows"
    for segments in ([half(1), half(1)], [half(2), half(1)], [half(1), half(3), half(2)]):
        yield line("assignment", sheet(*segments))
    yield line("assignment", sheet(Segment(1, 9, 8, ())))
    yield line("assignment", sheet(Segment(1, 9, 9, ()), Segment(2, 0xFFFF, 0xFFFF, ((0, 0xFFFF),))))
    yield line("assignment", row_b[:8] + b"\xff\xff" + row_b[10:])
    yield line("assignment", sheet(wide)[:22] + b"\0\3" + sheet(wide)[24:])
    yield "# buckets: apart, in any order, and sharing a value; reversed"
    for buckets in (
        [(0, 5), (6, 9)], [(0, 5), (5, 9)], [(6, 9), (0, 5)], [(5, 9), (0, 5)], [(0, 9), (3, 4)], [(3, 4), (0, 9)], [(7, 7), (7, 7)], [(4, 3)],
        [(0, 0), (9, 8)], points(40)[::-1], (*points(40)[::-1], (17, 17)), (*points(40), (0, 0)),
    ):
        yield line("assignment", sheet(half(1, *buckets)))
    yield line("front", sheet(half(1, (0, 5), (5, 9))) + b"\0")


# ---- deltas


def deltas():
    yield "# deltas: one id lost and one record gained, cut at every length, and with a byte behind it"
    small = change([7], [half(9)])
    yield line("delta", small)
    yield from cuts("delta", small)
    yield line("delta", small + b"\0")
    yield "# none; ids that do not rise, lost and gained; the same id in both; bad records; counts beyond what follows"
    yield line("delta", change())
    for lost in ([1, 1], [2, 1], [0, 1, HIGHEST]):
        yield line("delta", change(lost))
    for gained in ([half(1), half(1)], [half(2), half(1)], [Segment(1, 2, 1, ())], [half(1, (0, 5), (5, 9))], [half(1, (6, 9), (0, 5))]):
        yield line("delta", change(gained=gained))
    yield line("delta", change([9], [half(9)]))
    yield line("delta", change()[:8] + b"\xff\xff\0\0")
    yield line("delta", change()[:8] + b"\0\0\xff\xff")
    yield "# the longest of one change; longer ones, with more buckets than a slot has room for"
    yield line("delta", pack_delta(LONGEST))
    yield line("delta", change(gained=[half(0, *points(1000))]))
    yield line("delta", change(gained=[half(0, *points(1000))])[:-1])


# ---- what changed


def differences(pairs):
    yield "# what changed: rows C and E; nothing; an altered range, id, bucket; buckets in another order; the longest delta"
    empty, row_b = sheet(epoch=2), sheet(half(0))
    up, down = half(4, (0, 5), (6, 9)), half(4, (6, 9), (0, 5))
    for old, new in (
        (empty, row_b), (row_b, sheet(half(0), epoch=4)), (row_b, row_b), (row_b, empty), (empty, empty), (row_b, sheet(Segment(0, 0, 0x7FFE, ()))),
        (row_b, sheet(Segment(0, 1, 0x7FFF, ()))), (row_b, sheet(half(1))), (sheet(up), sheet(down)), (sheet(up), sheet(up)),
        (sheet(up), sheet(half(4, (0, 5), (6, 10)))), (sheet(up), sheet(half(4, (0, 5)))), (sheet(half(4)), sheet(up)),
        (sheet(half(1), up, half(9)), sheet(half(1), down, half(9))), (sheet(half(2), half(4)), sheet(half(1), half(3), half(5))),
        (sheet(*BARE[:145]), sheet(half(0, *points(506)))), (sheet(half(0, *points(506))), sheet(*BARE[:145])),
    ):
        yield line("difference", old, new)
    yield "# random ones; malformed ones"
    for old, new in pairs:
        yield line("difference", sheet(*old, epoch=6), sheet(*new, epoch=7))
    for old, new in ((row_b[:-1], row_b), (row_b, row_b + b"\0"), (b"", row_b), (row_b, b""), (sheet(*BARE), row_b)):
        yield line("difference", old, new)


# ---- apply and join


def at_edge(name, first, second, result):
    """The output exactly as long as the result, one byte shorter, and none."""
    return [line(name, first, second, room) for room in (len(result), len(result) - 1, 0)]


def applies(pairs):
    yield "# apply: what changed gives the new list, also where the output is just as long; random ones"
    for old, new in pairs:
        delta = pack_delta(difference(Assignment(6, old), Assignment(7, new)))
        yield line("apply", sheet(*old, epoch=6), delta, len(sheet(*new)))
    yield line("apply", sheet(*BARE[:145]), pack_delta(LONGEST), 2048)
    yield from at_edge("apply", sheet(half(1)), change([1], [half(2, (3, 4))]), sheet(half(2, (3, 4))))
    yield "# ids that are not there; records written over others; the same id lost and gained; nothing; everything lost"
    three = sheet(half(1), half(4, (1, 2)), half(HIGHEST))
    for delta in (
        change([0, 2, 9]), change([], [half(4), half(5)]), change([4], [half(4, (3, 3))]), change([1, 4], [half(4)]), change(), change([1, 4, HIGHEST]),
        change([], [half(0), Segment(4, 1, 1, ()), half(HIGHEST, (8, 9))]),
    ):
        yield line("apply", three, delta, 300)
    yield line("apply", three, change([1, 4, HIGHEST]), 9)
    yield "# a result of 2,048 bytes, and of 2,052, which is 15 before 21; malformed ones, which are 20 before both"
    most = sheet(*BARE[:144])
    for room in (2048, 2047):
        yield line("apply", most, change([], [half(500, (1, 1), (2, 2))]), room)
    for room in (2100, 0):
        yield line("apply", most, change([], [half(500, *points(3))]), room)
    yield line("apply", sheet(), change([], [half(0, *points(507))]), 0)
    for a, d in ((three[:-1], change()), (three, change()[:-1]), (b"", b""), (sheet(*BARE), change()), (three, change([2, 1]))):
        yield line("apply", a, d, 0)
    yield line("apply", three, change([], [half(4, (0, 5), (5, 9))]), 300)


def joins(pairs):
    yield "# join: two changes one behind the other, in an output just as long as the result; random ones"
    for (old, middle), (_, new) in zip(pairs, pairs[1:]):
        first = difference(Assignment(6, old), Assignment(7, middle))
        second = difference(Assignment(7, middle), Assignment(8, new))
        yield line("join", pack_delta(first), pack_delta(second), len(pack_delta(join(first, second))))
    one, two = Delta(8, [1, 5], [half(2), half(6, (1, 2))]), Delta(HIGHEST, [2, 5], [half(1), half(6)])
    yield from at_edge("join", pack_delta(one), pack_delta(two), pack_delta(join(one, two)))
    yield from at_edge("join", pack_delta(two), pack_delta(one), pack_delta(join(two, one)))
    yield "# nothing and something; the same id lost and gained; records beyond a slot; the longest twice"
    for first, second in (
        (change(), change(epoch=9)), (change([1]), change()), (change(), change([1])), (change([1], [half(1)]), change([1])),
        (change([1]), change([1], [half(1)])), (change([], [half(3)]), change([3])), (change([], [half(3)]), change([], [half(3, (1, 1))])),
        (change([HIGHEST]), change([0, HIGHEST])), (change([], [half(1, *points(600))]), change([], [half(2)])),
        (pack_delta(LONGEST), change([0], BARE[:145])),
    ):
        yield line("join", first, second, 16384)
    longer = join(LONGEST, Delta(9, [900], []))
    yield from at_edge("join", pack_delta(LONGEST), change([900], epoch=9), pack_delta(longer))
    yield "# malformed ones, which are 20 before 21"
    good = change([1], [half(2)])
    bad = (good[:-1], b"", good + b"\0", change([2, 1]), change([], [half(1, (2, 1))]))
    for first, second in [(data, good) for data in bad] + [(good, data) for data in bad]:
        yield line("join", first, second, 0)


# ---- the writer


def writes(pairs):
    yield "# the writer: row A's assignment; no segment, whatever the parent is; the numbers at the limits; random ones"
    row_a = sheet(half(0))
    yield from at_edge("to_pb", row_a, PARENT, to_pb(Assignment(3, [half(0)]), PARENT))
    for parent in (b"", b"topic://t", b"\xff", PARENT):
        yield line("to_pb", sheet(), parent, 2)
    yield line("to_pb", sheet(), PARENT, 1)
    yield line("to_pb", sheet(epoch=HIGHEST), b"", 11)
    limits = [Segment(0, 0, 0, ()), Segment(127, 0x7F, 0x80, ()), Segment(128, 0, 0xFFFF, ((0, 0x7F), (0x80, 0x3FFF), (0x4000, 0xFFFF)))]
    yield line("to_pb", sheet(*limits, Segment(HIGHEST, 0xABCD, 0xFFFF, ()), epoch=HIGHEST), b"topic://t/n//m", 300)
    yield line("to_pb", sheet(*BARE[:145]), PARENT, 16384)
    yield line("to_pb", sheet(half(0, *points(506))), PARENT, 16384)
    for old, _ in pairs[:3]:
        yield line("to_pb", sheet(*map(cut_to_range, old)), PARENT, 1000)
    yield "# parents: not UTF-8, also where the form is wrong too; no parents; both before the room, malformed before all"
    for parent in (
        b"topic://t/n/\xff", b"\xff", b"topic://t//m", b"topic://t/n", b"topic://t/n/", b"topic://t/n/m/", b"topic://t/n/m?", b"topic://t/n/a#b", b"",
        b"topic://t?/n/m", b"topic://t/#n/m", "topic://t?/n#/é".encode(),
    ):
        yield line("to_pb", row_a, parent, 0)
    yield line("to_pb", row_a, "topic://t-/n_/é".encode(), 80)
    for a in (row_a[:-1], row_a + b"\0", b"", sheet(*BARE), sheet(half(1, (0, 5), (5, 9)))):
        yield line("to_pb", a, b"\xff", 0)
    yield "# buckets at the ends of their range, and outside it: the first of the lowest id, whatever the parent and the room are; random ones"
    for buckets in ([(10, 20)], [(20, 20), (10, 19)]):
        yield line("to_pb", sheet(Segment(7, 10, 20, buckets)), PARENT, 100)
    for parent in (PARENT, b"\xff", b""):
        for buckets in ([(9, 9)], [(9, 10)], [(20, 21)], [(21, 21)], [(9, 21)], [(20, 20), (10, 19), (21, 22), (0, 5)]):
            yield line("to_pb", sheet(half(6, (0, 0x7FFF)), Segment(7, 10, 20, buckets), Segment(8, 1, 1, ((0, 0),))), parent, 0)
    yield line("to_pb", sheet(half(0, *points(506)[::-1], (0x7FFF, 0x8000)))[:-1], PARENT, 0)
    yield line("to_pb", sheet(half(0, *points(505)[::-1], (0x7FFF, 0x8000))), PARENT, 0)
    for old, _ in pairs[:2]:
        yield line("to_pb", sheet(*old), PARENT, 1000)


# ---- messages taken in


def wire(number, start=0, end=0x7FFF, *buckets, name=None, path=PATH):
    """A segment's message; its name is the right one unless another is given."""
    low, high = start % (1 << 32), end % (1 << 32)
    return segment_message(number, start, end, name_of(path, number, low, high) if name is None else name, buckets)


def update(*segments, epoch=3, parent=PARENT):
    assignment = number_field(1, epoch) + b"".join(part_field(2, segment) for segment in segments)
    return line("intake", 2, parent, number_field(1, 7) + part_field(2, assignment))


def negative(value):
    return (1 << 64) + value


def bare(*numbers):
    return [wire(number) for number in numbers]


def good_messages():
    yield "# taken in: row A as an update and as a response; no assignment; segments out of order; ids at the limits; row J's parent"
    assignment = number_field(1, 3) + part_field(2, wire(0))
    yield update(wire(0))
    yield line("intake", 4, PARENT, number_field(1, 7) + number_field(2, 5) + part_field(4, assignment))
    yield line("intake", 4, PARENT, number_field(1, 7) + part_field(2, assignment))
    yield line("intake", 2, b"", b"")
    yield update(epoch=HIGHEST, parent=b"no parent")
    yield update(*bare(5, 1, 4, 2, 3))
    yield update(*bare(HIGHEST, 0, 1 << 63))
    yield update(wire(3, 0, 9, (6, 9), (0, 5)), wire(1, 5, 7, (7, 7)), wire(2, 0, 0xFFFF, (0, 0xFFFF)), wire(0))
    yield update(wire(1, path=b"t/n//m"), parent=b"topic://t/n//m")
    yield update(wire(1, (1 << 32) + 5, (7 << 32) + 6, ((9 << 32) + 5, (1 << 40) + 6)))
    yield "# unknown fields between; fields that come twice: the last number and name, the buckets of all; two assignments: the segments of both"
    fixed = number_field(9, 1) + b"\x51" + bytes(8) + b"\x55" + bytes(4)
    bucket = number_field(2, 8) + number_field(1, 99) + fixed + number_field(1, 7)
    yield update(number_field(1, 9) + wire(2, 1, 8, (1, 2)) + fixed + part_field(5, bucket))
    twice = part_field(4, b"no name") + wire(2)
    yield update(twice, number_field(2, 70000) + wire(1))
    again = number_field(1, 8) + part_field(2, wire(6))
    yield line("intake", 2, PARENT, part_field(2, number_field(1, 4) + part_field(2, wire(7))) + number_field(1, 7) + part_field(2, again))
    yield line("intake", 2, PARENT, part_field(2, part_field(2, wire(6))) + part_field(2, again))
    yield "# row A cut short: the fields before the cut"
    whole = number_field(1, 7) + part_field(2, assignment)
    yield from (line("intake", 2, PARENT, whole[:size]) for size in (1, 2, 3, 4, 44))
    inner = [assignment[:size] for size in range(0, len(assignment), 6)]
    yield from (line("intake", 2, PARENT, part_field(2, part)) for part in inner)


def long_messages():
    yield "# row H through a message: 145 bare segments pass, 146 are 15; 506 buckets pass, 507 are 15"
    numbers = range(1, 147)
    yield update(*bare(*numbers[:145]))
    yield update(*bare(*numbers))
    yield update(wire(0, 0, 0x7FFF, *points(506)))
    yield update(wire(0, 0, 0x7FFF, *points(507)))
    yield "# 145 falling; three segments of 2,048 bytes, and with a bucket more"
    yield update(*bare(*numbers[:145][::-1]))
    yield update(wire(9, 0, 249, *points(250)), wire(4, 0, 249, *points(249)), wire(7))
    yield update(wire(9, 0, 249, *points(250)), wire(4, 0, 249, *points(250)), wire(7))
    yield "# beyond a slot every segment is still tested: a bad name in the 147th; a repeated id; a reversed range before a repeat, and behind it"
    yield update(*bare(*numbers), wire(147, name=b"segment://a/b/c/0000-7fff-148"))
    yield update(*bare(*numbers), wire(1))
    yield update(*bare(*numbers), wire(200), wire(201, 5, 4), wire(3))
    yield update(*bare(*numbers), wire(200), wire(200), wire(201, 5, 4))
    yield "# more buckets than a slot has room for: an overlap in the first row, with a bad bucket at index 602 and without"
    row = list(points(600))
    yield update(wire(1, 0, 9, *row[:3], (2, 2), *row[4:], (700, 700), (701, 701), (9, 8)))
    yield update(wire(1, 0, 9, *row[:3], (2, 2), *row[4:], (700, 700)))
    yield "# an overlap of buckets 0 and 550, and of 505 and 506"
    yield update(wire(1, 0, 9, (550, 560), *row[1:550], (555, 555)))
    yield update(wire(1, 0, 9, *row[:506], (505, 505), *row[507:510]))
    yield "# a bucket outside the range behind 505 and 506 others, rising and falling; before 15"
    yield update(wire(1, 0, 504, *row[:506]))
    yield update(wire(1, 1, 599, *row[1:507][::-1], (0, 0)))
    yield update(wire(1, 0, 598, *row))


def refused_messages():
    yield "# ranges: start above 65,535, end above it, reversed; before the buckets, the parent and the name"
    for start, end in ((65536, 0), (0, 65536), (65536, 65536), (2, 1), (65535, 65535), (HIGHEST, 0), (1 << 32, 1 << 32)):
        yield update(wire(8, start, end))
    yield update(wire(1, 2, 1, (5, 4), name=b""), parent=b"")
    yield "# row G; buckets negative, in five bytes and in ten, above 65,535, reversed; the first of several; before the overlap"
    for buckets in (
        [(0, 5), (5, 9)], [(0, 5), (6, 9)], [(negative(-1), 5)], [(5, negative(-1))], [((1 << 32) - 2, 5)], [(negative(-(1 << 31)), (1 << 31) - 1)],
        [(1 << 31, 1 << 31)], [(0, 65536)], [(65536, 65537)], [(9, 3)], [(0, 1), (2, 3), (5, 4), (negative(-7), 0)], [(0, 5), (5, 9), (9, 8)],
        [(6, 9), (0, 6)],
    ):
        yield update(wire(HIGHEST, 0, 9, *buckets))
    yield update(wire(4) + part_field(5, b""), wire(5) + part_field(5, number_field(1, 1)))
    yield "# buckets at the ends of the range, and outside it: the first of them, behind 10 and 11, before 12, 13 and 14; fields in another order"
    for buckets in (
        [(10, 20)], [(20, 20), (10, 19)], [(9, 9)], [(9, 10)], [(20, 21)], [(21, 21)], [(9, 21)], [(20, 20), (10, 19), (21, 22), (0, 5)],
        [(0, 5), (20, 20), (10, 19)], [(0, 0xFFFF)], [(21, 22), (5, 4)], [(21, 22), (22, 23)], [(0, 0), (9, 9), (0, 0)],
    ):
        yield update(wire(HIGHEST, 10, 20, *buckets))
    yield update(wire(1, 10, 20, (9, 9), name=b""), parent=b"")
    yield update(wire(1, 10, 20, (9, 9), name=b""))
    yield update(wire(1, 10, 20), wire(1, 10, 20, (9, 9)))
    yield update(wire(1, 10, 20), wire(1, 10, 20), wire(2, 10, 20, (9, 9)))
    yield update(part_field(5, number_field(1, 9) + number_field(2, 9)) + wire(1, 10, 20))
    yield update(part_field(5, number_field(1, 10) + number_field(2, 20)) + wire(1, 10, 20))
    yield "# no parent: behind a segment's own ranges, before its name; not looked at where there is no segment"
    for parent in (b"", b"topic://t//m", b"topic://a/b", b"segment://a/b/c", b"topic://a/b/c/"):
        yield update(wire(1), parent=parent)
    for path in (b"t?/n/m", b"t/n#/m"):
        yield update(wire(1, path=path), parent=b"topic://" + path)
        yield update(wire(1, 9, 3, path=path), parent=b"topic://" + path)
        yield update(wire(1, 0, 9, (1, 2), (2, 3), path=path), parent=b"topic://" + path)
        yield update(wire(1, 0, 9, (1, 2), (9, 10), path=path), parent=b"topic://" + path)
        yield update(parent=b"topic://" + path)
    yield update(wire(1, 0, 9, (1, 2), (2, 3)), parent=b"")
    yield update(wire(1, name=b""), parent=b"")
    yield "# names: of another id, range, parent; in upper case; with zeros; cut; longer; none; and a name that is not UTF-8 of such a parent"
    for name in (
        b"segment://a/b/c/0000-abcd-12", b"segment://a/b/c/0000-abce-1", b"segment://a/b/d/0000-abcd-1", b"segment://a/b/c/0000-ABCD-1",
        b"segment://a/b/c/0000-abcd-01", b"segment://a/b/c/0000-abcd-", b"segment://a/b/c/0000-abcd-1 ", b"topic://a/b/c/0000-abcd-1", b"",
    ):
        yield update(wire(1, 0, 0xABCD, name=name))
    yield update(wire(1, path=b"a/b/\xff"), parent=b"topic://a/b/\xff")
    yield "# ids that came before: next to each other, apart, the lower first; a bad name is found first; the first bad segment in wire order"
    for numbers in ((1, 1), (3, 1, 2, 3), (0, 0), (HIGHEST, 5, HIGHEST), (4, 2, 2, 4)):
        yield update(*bare(*numbers))
    yield update(wire(1), wire(1, name=b"x"))
    yield update(wire(1), wire(1, 3, 2), wire(2, 9, 8))
    yield update(wire(2, 0, 3), wire(1), wire(2, 4, 5))


# ---- random values


def some_buckets(rng):
    edges = sorted(rng.sample(range(65536), 2 * rng.randrange(4)))
    buckets = list(zip(edges[::2], edges[1::2]))
    rng.shuffle(buckets)
    return tuple(buckets)


def some_segment(rng, number):
    start, end = sorted(rng.sample(range(65536), 2))
    return Segment(number, start, end, some_buckets(rng))


def cut_to_range(segment):
    """What of its buckets lies inside its range."""
    cut = ((max(low, segment.start), min(high, segment.end)) for low, high in segment.buckets)
    return segment._replace(buckets=tuple((low, high) for low, high in cut if low <= high))


def altered(rng, segment):
    """The segment as it is, with its buckets the other way round, another with its id, or none."""
    return rng.choice([[segment], [segment], [segment._replace(buckets=segment.buckets[::-1])], [some_segment(rng, segment.id)], []])


def some_pairs(count):
    """Lists of segments, each one changed from the one before."""
    rng = random.Random(20)
    old = [some_segment(rng, number) for number in sorted(rng.sample(range(16), 6))]
    for _ in range(count):
        kept = {segment.id: segment for before in old for segment in altered(rng, before)}
        for number in rng.sample(range(16), 2):
            kept.setdefault(number, some_segment(rng, number))
        new = [kept[number] for number in sorted(kept)][:9]
        yield old, new
        old = new


def made():
    pairs = list(some_pairs(8))
    groups = (
        assignments(), deltas(), differences(pairs), applies(pairs), joins(pairs), writes(pairs), good_messages(), long_messages(), refused_messages(),
    )
    return replaced("# ==== packed assignments, deltas, the calls with an output, the intake: by tools/assignment_lines.py", (told for group in groups for told in group))


if __name__ == "__main__":
    sys.exit(usage.generate(__doc__, made))
