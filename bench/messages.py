#!/usr/bin/env python3
"""Generator: writes the benchmark messages to a folder, updates for consumer 7 at epoch 20,000 under the parent topic://a/b/c if no other is said.

a: 4 segments without buckets. b: 145 segments without buckets. c: one segment with 506 buckets that rise. s: c with its buckets in falling order.
f: b with its segments in falling order, g: shuffled. x: 5,000 segments, which no slot can hold. l: one segment with 65,536 falling buckets of one value.
response: the answer to request 1 with no segments, at that epoch. a-long: a under the parent LONG, whose path has 46 bytes.
a-assignment, b-assignment, c-assignment: the part of field 2 alone. a2, a-long2: with 2 other ids. b2: b with 72 other ids, f2, g2 the same of f, g. c2: c with
its upper 253 buckets one longer. Each comes at the same epoch, so that either is taken after the other.

And updates of watch 7 for sets of n topics of 44 bytes, of which 36 are the same in all: w-n-rising, w-n-shuffled and w-n-falling are snapshots; w-n-few adds 5 topics and
removes 5; w-n-half, w-n-half-shuffled and w-n-half-falling add n / 4 and remove n / 4; w-n-high adds n / 4 and removes the highest alone. Each of these diffs has a second
one, with -back behind its name, that takes it back.

And what grows with n: segments-n, segments-n-falling, segments-n-shuffled; buckets-n-falling, in one segment; repeat-n, segments of which the last has the first one's id;
text-n, of n bytes.
"""
import argparse
import pathlib
import random

PARENT = "topic://a/b/c"
LONG = "topic://spacecraft-operations/telemetry-europe/orbiter"


def varint(value):
    out = bytearray()
    while value >= 0x80:
        out.append(value & 0x7F | 0x80)
        value >>= 7
    return bytes(out) + bytes([value])


def number(field, value):
    return varint(field << 3) + varint(value)


def part(field, content):
    return varint(field << 3 | 2) + varint(len(content)) + content


def segment(identity, start, end, buckets=(), parent=PARENT):
    name = b"segment%s/%04x-%04x-%d" % (parent.removeprefix("topic").encode(), start, end, identity)
    ranges = b"".join(part(5, number(1, low) + number(2, high)) for low, high in buckets)
    return number(1, identity) + number(2, start) + number(3, end) + part(4, name) + ranges


def assignment(segments):
    return number(1, 20000) + b"".join(part(2, one) for one in segments)


def update(segments):
    return number(1, 7) + part(2, assignment(segments))


def quarters(parent, step=0):
    """Four segments without buckets; the upper two have ids that are higher by so much."""
    return [segment(i + i // 2 * step, 16384 * i, 16384 * i + 16383, parent=parent) for i in range(4)]


def narrow(count, odd=0):
    """So many segments without buckets, of 400 values or fewer; with odd, every second id is one higher."""
    width = min(400, 65536 // count)
    return [segment(2 * i + i % 2 * odd, width * i, width * i + width - 1) for i in range(count)]


def shuffled(items):
    return random.Random(len(items)).sample(items, len(items))


RISING = [(128 * i, 128 * i + 100) for i in range(506)]
LONGER = [(128 * i, 128 * i + 100 + i // 253) for i in range(506)]
LISTS = {"a": quarters(PARENT), "b": narrow(145), "c": [segment(0, 0, 65535, RISING)]}
MESSAGES = {
    "a2": update(quarters(PARENT, 4)), "b2": update(narrow(145, 1)),
    "a-long": update(quarters(LONG)), "a-long2": update(quarters(LONG, 4)),
    **{name: update(segments) for name, segments in LISTS.items()},
    **{f"{name}-assignment": assignment(segments) for name, segments in LISTS.items()},
    "f": update(narrow(145)[::-1]), "f2": update(narrow(145, 1)[::-1]),
    "g": update(shuffled(narrow(145))), "g2": update(shuffled(narrow(145, 1))),
    "c2": update([segment(0, 0, 65535, LONGER)]),
    "s": update([segment(0, 0, 65535, RISING[::-1])]),
    "x": update(segment(i, 0, 65535) for i in range(5000)),
    "l": update([segment(0, 0, 65535, [(i, i) for i in reversed(range(65536))])]),
    "response": number(1, 1) + part(4, number(1, 20000)),
}

SIZES = (10, 1000, 2500, 5000, 10000, 20000)
# topics of the long snapshots; the long diffs have as many, on a set of twice as many
MANY = 110_000


def topic(number):
    return b"topic://tenant/namespace/spacecraft-%08d" % number


def snapshot(numbers):
    return number(1, 7) + part(2, b"".join(part(1, topic(one)) for one in numbers))


def diff(added, removed):
    return number(1, 7) + part(3, b"".join(part(1, topic(one)) for one in added) + b"".join(part(2, topic(one)) for one in removed))


def both_ways(name, added, removed):
    return {name: diff(added, removed), f"{name}-back": diff(removed, added)}


def spread(size, count):
    """As many numbers of a set of this size, from all of it; those that the set lacks are one higher."""
    return list(range(0, 2 * size, 2 * (size // count))[:count])


def watch_updates(size):
    """The updates for a set whose topics have the numbers 0, 2, 4, .."""
    held, name = list(range(0, 2 * size, 2)), f"w-{size}"
    few, half = spread(size, 5), spread(size, size // 4)
    others = [one + 1 for one in half]
    return {
        f"{name}-rising": snapshot(held), f"{name}-shuffled": snapshot(shuffled(held)), f"{name}-falling": snapshot(held[::-1]),
        **both_ways(f"{name}-few", [one + 1 for one in few], few), **both_ways(f"{name}-half", others, half),
        **both_ways(f"{name}-half-shuffled", shuffled(others), shuffled(half)),
        **both_ways(f"{name}-half-falling", others[::-1], half[::-1]),
        **both_ways(f"{name}-high", others, held[-1:]),
    }


def growing():
    """The messages whose size is in their name."""
    for count in (36, 72, 144):
        rising = narrow(count)
        yield from {f"segments-{count}": update(rising), f"segments-{count}-falling": update(rising[::-1]),
                    f"segments-{count}-shuffled": update(shuffled(rising))}.items()
    for count in (126, 252, 504, 16384, 32768, 65536):
        width = 65536 // count
        yield f"buckets-{count}-falling", update([segment(0, 0, 65535, [(i * width, i * width) for i in reversed(range(count))])])
    for count in (5000, 10000, 20000):
        segments = [segment(i, 0, 65535) for i in range(count)]
        yield f"segments-{count}", update(segments)
        yield f"segments-{count}-falling", update(segments[::-1])
        yield f"repeat-{count}", update(segments[:-1] + segments[:1])
    german = "Größe über Flüsse: naïve café, ".encode()
    for count in (16384, 32768, 65536):
        yield f"text-{count}", german * (count // len(german)) + b"." * (count % len(german))


def long():
    """Messages of some 5 MB, in the orders that cost most."""
    segments = [segment(i, 0, 65535) for i in range(115_000)]
    yield "long-falling", update(segments[::-1])
    yield "long-repeat", update(segments[:-1] + segments[:1])
    falling = [(i, i) for i in reversed(range(65536))]
    yield "long-buckets", update([segment(i, 0, 65535, falling) for i in range(8)])
    orders = ("rising", "shuffled", "falling")
    yield from ((name, one) for name, one in watch_updates(MANY).items() if name.endswith(orders) and "half" not in name)
    yield from ((name, one) for name, one in watch_updates(2 * MANY).items() if "half" in name or name.endswith("rising"))


for count in SIZES:
    MESSAGES |= watch_updates(count)

# texts of some 4 KB: ASCII; of sequences of two, three and four bytes; German, whose letters are mostly ASCII; and a segment's name
TEXTS = {
    "ascii": "a" * 4096, "two": "é" * 2048, "three": "€" * 1365, "four": "🛰" * 1024,
    "german": "Größe über Flüsse: naïve café, " * 128, "name": "segment://tenant/namespace/topic/0000-7fff-1",
}
MESSAGES |= {f"text-{name}": text.encode() for name, text in TEXTS.items()}



def write_all(folder):
    folder.mkdir(parents=True, exist_ok=True)
    for name, message in (MESSAGES | dict(growing()) | dict(long())).items():
        (folder / f"{name}.bin").write_bytes(message)


if __name__ == "__main__":
    parser = argparse.ArgumentParser(description=__doc__, formatter_class=argparse.RawDescriptionHelpFormatter)
    parser.add_argument("folder", type=pathlib.Path, help="where the messages go")
    write_all(parser.parse_args().folder)
