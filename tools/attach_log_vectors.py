#!/usr/bin/env python3
"""Judge and generator: whether an uploader's log is what deltas ask for (02 m), reckoned for tools/vectors.py; run by itself, it makes vectors/attach_log.log.

A log is read as a text of bits, and the entries that a delta asks for are counted in any order.
"""
import itertools
import random
import sys
from collections import Counter

import logs
import usage
from assignment_vectors import Bytes, Delta, Malformed, Segment, pack_delta, take_delta
from name_vectors import Refused

DETACH, ATTACH = "0", "1"
FILLING = "0000000"


def deltas_in(data):
    """The deltas, one behind another."""
    data, deltas = Bytes(data), []
    try:
        while data.at < len(data.data):
            deltas.append(take_delta(data))
    except Malformed:
        raise Refused(20) from None
    return deltas


def entries_in(log):
    """The entries, each a bit and an id."""
    bits = "".join(f"{byte:08b}" for byte in log)
    pieces = ["".join(piece) for piece in itertools.zip_longest(*[iter(bits)] * 72, fillvalue="")]
    if any(len(piece) != 72 or piece[65:] != FILLING for piece in pieces):
        raise Refused(37)
    return [(piece[0], int(piece[1:65], 2)) for piece in pieces]


def asked(delta):
    """The entries that a delta asks for: those that come first, then the others."""
    yield [(DETACH, number) for number in delta.lost]
    yield [(ATTACH, segment.id) for segment in delta.gained]


def check_log(deltas, log):
    deltas, entries = deltas_in(deltas), entries_in(log)
    for part in (part for delta in deltas for part in asked(delta)):
        front, entries = entries[: len(part)], entries[len(part) :]
        if Counter(front) != Counter(part):
            return "no"
    return "no" if entries else "yes"


COMMANDS = {"check_log": ("bb", check_log)}

# ---- the vectors


def delta(lost, gained, epoch=1):
    return Delta(epoch, lost, [Segment(number, 0, 0x7FFF, ()) for number in gained])


def packed_entry(entry, filling=FILLING):
    bit, number = entry
    return int(f"{bit}{number:064b}{filling}", 2).to_bytes(9, "big")


def packed_log(entries):
    return b"".join(map(packed_entry, entries))


def packed(deltas):
    return b"".join(map(pack_delta, deltas))


def detach(*ids):
    return [(DETACH, number) for number in ids]


def attach(*ids):
    return [(ATTACH, number) for number in ids]


def row(deltas, entries):
    return logs.line("check_log", packed(deltas), packed_log(entries))


def in_order(deltas):
    """The log that has the order of the ids."""
    return [entry for one in deltas for part in asked(one) for entry in part]


def none():
    yield "# ==== no deltas, and deltas that are empty, have no entries"
    yield row([], [])
    yield row([], attach(5))
    yield row([delta([], [])], [])
    yield row([delta([], [], 7), delta([], [], 3)], [])
    yield row([delta([], [])], detach(0))


def ids():
    yield "# ==== every bit of an id, detached and attached"
    numbers = [1 << bit for bit in range(64)]
    every = [delta(numbers, numbers)]
    yield row(every, in_order(every))
    for number in (0, 1, 2**63, 2**64 - 1):
        yield row([delta([number], [])], detach(number))
        yield row([delta([number], [])], attach(number))
        yield row([delta([], [number])], detach(number))
        yield row([delta([], [number])], attach(number))
        yield row([delta([number], [])], detach(number ^ 1))
        yield row([delta([number], [])], detach(number ^ 2**63))


def orders():
    yield "# ==== every order of three detaches and two attaches"
    one = [delta([3, 5, 2**64 - 1], [4, 5])]
    yield from (row(one, entries) for entries in itertools.permutations(in_order(one)))
    yield "# one missing, each in turn; one twice, each at each place; one for another"
    good = in_order(one)
    yield from (row(one, good[:at] + good[at + 1 :]) for at in range(5))
    yield from (row(one, good[:at] + [again] + good[at:]) for at in range(6) for again in good)
    yield from (row(one, good[:at] + [other] + good[at + 1 :]) for at in range(5) for other in [*good, (DETACH, 4), (ATTACH, 3), (DETACH, 9)])


def several():
    yield "# ==== deltas in a row: an altered id, one that goes and comes back, an empty delta between"
    deltas = [delta([5, 7], [6, 7], 3), delta([], [], 4), delta([6], [5], 5)]
    yield row(deltas, in_order(deltas))
    yield row(deltas, detach(7, 5) + attach(7, 6) + detach(6) + attach(5))
    yield "# two entries exchanged, each two in turn"
    good = in_order(deltas)
    for low, high in itertools.combinations(range(len(good)), 2):
        entries = good.copy()
        entries[low], entries[high] = entries[high], entries[low]
        yield row(deltas, entries)
    yield "# the deltas in another order; the log of two of them; an entry more"
    yield row(deltas[::-1], good)
    yield row(deltas[:1], good)
    yield row(deltas[1:], good)
    yield row(deltas, good[:4])
    yield row(deltas, good + attach(5))
    yield row(deltas, detach(5) + good)


def refused():
    deltas = [delta([5], [6], 3), delta([6], [], 4)]
    good, log = packed(deltas), packed_log(in_order(deltas))
    yield "# ==== 37: every length of a log"
    yield from (logs.line("check_log", good, log[:length]) for length in range(len(log) + 1))
    yield logs.line("check_log", b"", b"\0")
    yield "# every filling bit of every entry"
    for at, bit in itertools.product(range(3), range(7)):
        filling = "".join("1" if place == bit else "0" for place in range(7))
        entries = [packed_entry(entry, filling if place == at else FILLING) for place, entry in enumerate(in_order(deltas))]
        yield logs.line("check_log", good, b"".join(entries))
    yield "# a filling bit where the log could not pass either"
    yield logs.line("check_log", b"", packed_entry((ATTACH, 5), "0000001"))
    yield "# ==== 20: every length of the deltas, with a log that passes; with one that is none"
    yield from (logs.line("check_log", good[:length], log) for length in range(len(good)))
    yield from (logs.line("check_log", good[:length], log[:-1]) for length in (0, 11, 12, len(good) - 1))
    yield logs.line("check_log", good + b"\0", log)
    yield "# ids that do not rise, a range that is reversed, buckets that share a value; in the first delta and in the last"
    bad = [delta([5, 5], []), delta([5, 4], []), delta([], [5, 5]), delta([], [5, 4])]
    bad += [Delta(1, [], [Segment(5, 2, 1, ())]), Delta(1, [], [Segment(5, 1, 9, ((1, 2), (2, 3)))])]
    for one in bad:
        yield row([one, *deltas], in_order([one, *deltas]))
        yield row([*deltas, one], in_order([*deltas, one]))


def spoiled(rng, entries):
    """The entries as they are, or with one change."""
    entries = entries.copy()
    if not entries:
        return entries
    at, to = rng.randrange(len(entries)), rng.randrange(len(entries))
    match rng.randrange(6):
        case 0:
            del entries[at]
        case 1:
            entries.insert(at, entries[to])
        case 2:
            entries[at], entries[to] = entries[to], entries[at]
        case 3:
            bit, number = entries[at]
            entries[at] = (bit, number ^ 1 << rng.randrange(64))
    return entries


def some(rng, most):
    return sorted(rng.sample(range(12), rng.randrange(most)) if rng.randrange(3) else {rng.getrandbits(64) for _ in range(rng.randrange(most))})


def at_random(rng):
    yield "# ==== deltas and logs at random, each part in any order, now and then one entry wrong"
    for _ in range(150):
        deltas = [delta(some(rng, 6), some(rng, 6), rng.getrandbits(64)) for _ in range(rng.randrange(4))]
        parts = [part for one in deltas for part in asked(one)]
        for part in parts:
            rng.shuffle(part)
        yield row(deltas, spoiled(rng, [entry for part in parts for entry in part]))
    yield "# one delta of many ids: in their order, against it, in any; an entry twice in place of another"
    many = [delta(*(sorted({rng.getrandbits(64) for _ in range(count)}) for count in (120, 90)))]
    lost, gained = map(list, asked(many[0]))
    yield row(many, lost + gained)
    yield row(many, lost[::-1] + gained[::-1])
    rng.shuffle(lost)
    rng.shuffle(gained)
    yield row(many, lost + gained)
    yield row(many, lost[:-1] + lost[:1] + gained)
    yield row(many, lost + gained[1:] + gained[-1:])


def made():
    head = "# Uploaders' logs and the deltas that they follow or not, as a log of station, written and reckoned by tools/attach_log_vectors.py."
    lines = [head, *none(), *ids(), *orders(), *several(), *refused(), *at_random(random.Random("attach log vectors"))]
    return logs.made("attach_log", lines)


if __name__ == "__main__":
    sys.exit(usage.generate(__doc__, made))
