#!/usr/bin/env python3
"""Judge and generator: what the outer message of a connection carries, reckoned for tools/vectors.py, and vectors/command.log, which --write writes.

A command is taken apart from its front, field by field, into pieces; a number is read as a text of bits.
"""
import random
import sys

import logs
import usage
from name_vectors import Refused

# PulsarApi.proto, BaseCommand: the fields of the three messages, each with the number of its type; what station calls the message, and its field 1
TYPE = 1
MESSAGES = {74: ("response", "request"), 75: ("update", "consumer"), 77: ("watch", "watch")}
VARINT, I64, LEN, I32 = 0, 1, 2, 5
FIXED = {I64: 8, I32: 4}


class Broken(Exception):
    """What stands at the front is no varint, key or value."""


def number(data):
    """The number at the front, and how many bytes it has."""
    ends = [place for place, byte in enumerate(data[:10]) if byte < 128]
    if not ends:
        raise Broken
    size = ends[0] + 1
    value = int("".join(f"{byte & 127:07b}" for byte in reversed(data[:size])), 2)
    if value >> 64:
        raise Broken
    return value, size


def key(data):
    """The field's number, its wire type, and the key's length."""
    value, size = number(data)
    field, kind = divmod(value, 8)
    if value >> 32 or field == 0 or kind not in (VARINT, I64, LEN, I32):
        raise Broken
    return field, kind, size


def value(kind, data):
    """The value behind a key: a number or None, where its content starts, and where it ends."""
    if kind in FIXED:
        start, length = 0, FIXED[kind]
        told = None
    else:
        told, start = number(data)
        length = told if kind == LEN else 0
    if start + length > len(data):
        raise Broken
    return told, start, start + length


def fields(data):
    """Field, wire type, number, start and end of each field's content, in turn. A wrong type is told before its value is read."""
    at = 0
    while at < len(data):
        field, kind, size = key(data[at:])
        if (field == TYPE and kind != VARINT) or (field in MESSAGES and kind != LEN):
            raise Refused(4)
        told, start, end = value(kind, data[at + size :])
        yield field, kind, told, at + size + start, at + size + end
        at += size + end


def first_number(message):
    """The last number of field 1, among the fields before the first broken one; 0 where there is none."""
    found, at = 0, 0
    try:
        while at < len(message):
            field, kind, size = key(message[at:])
            told, _, end = value(kind, message[at + size :])
            if field == 1 and kind == VARINT:
                found = told
            at += size + end
    except Broken:
        pass
    return found


def command(data):
    try:
        read = list(fields(data))
    except Broken:
        raise Refused(3) from None
    types = [told for field, _, told, _, _ in read if field == TYPE]
    if not types:
        raise Refused(6)
    kind = int.from_bytes((types[-1] % 2**32).to_bytes(4, "big"), "big", signed=True)
    if kind not in MESSAGES:
        return f"other {kind}"
    places = [(start, end) for field, _, _, start, end in read if field == kind]
    if len(places) != 1:
        return f"parts {kind} {len(places)}"
    ((start, end),) = places
    name, label = MESSAGES[kind]
    return f"{name} at {start} length {end - start} {label} {first_number(data[start:end])}"


COMMANDS = {"command": ("b", command)}

# ---- the vectors


def varint(number, pad=0):
    """A number's bytes, with so many more than are needed."""
    out = []
    while number > 127 or pad:
        out.append(number % 128 + 128)
        pad -= number < 128
        number //= 128
    return bytes([*out, number])


def put(field, number, pad=0):
    return varint(field * 8, pad) + varint(number, pad)


def part(field, content, pad=0):
    return varint(field * 8 + LEN, pad) + varint(len(content), pad) + content


def fixed(field, kind):
    return varint(field * 8 + kind) + bytes(FIXED[kind])


def kind(number):
    return put(TYPE, number)


def log(data):
    return logs.line("command", data)


def each():
    yield "# ==== each of the three, with the type before it and behind it, with and without field 1"
    for field in MESSAGES:
        for message in (b"", put(1, 7), put(1, 2**64 - 1) + put(2, 3), put(1, 7) + put(1, 9), part(1, b"\x08\x05"), put(2, 3)):
            yield log(kind(field) + part(field, message))
            yield log(part(field, message) + kind(field))
    yield "# ==== types around them, unknown ones, at the ends of 32 and 64 bits"
    for number in (0, 2, *range(68, 84), 2**31 - 1, 2**31, 2**32 - 1, 2**32, 2**32 + 75, 2**63 + 77, 2**64 - 1, 2**64 - 75):
        yield log(kind(number) + b"".join(part(field, put(1, field)) for field in MESSAGES))
    yield "# ==== varints that are longer than they need be"
    for pad in range(1, 9):
        yield log(put(TYPE, 75, min(pad, 4)) + part(75, put(1, 7), min(pad, 3)))
        yield log(varint(TYPE * 8) + varint(75, pad) + part(75, put(1, 7)))


def together():
    yield "# ==== several types: the last counts; messages of other types are passed over"
    for first in MESSAGES:
        for last in (*MESSAGES, 2):
            yield log(kind(first) + part(74, put(1, 1)) + part(75, put(1, 2)) + part(77, put(1, 3)) + kind(last))
    yield "# ==== a message in no part, in two, in seven, beside others"
    for field in MESSAGES:
        for count in (0, 2, 7):
            yield log(kind(field) + part(field, put(1, 5)) * count)
            yield log(kind(field) + b"".join(part(other, b"") for other in MESSAGES if other != field) + part(field, b"") * count)
    yield "# ==== a message's own faults are not told here"
    for message in (b"\0", b"\x08", put(1, 4) + b"\x0b", b"\x80" * 11, put(1, 4) + b"\x12\x05", part(3, b"\xff")):
        yield log(kind(75) + part(75, message))
    yield "# ==== fields that are not known: each wire type, small and large numbers"
    for field in (2, 3, 73, 76, 78, 100, 2**29 - 1):
        for other in (put(field, 2**63), fixed(field, I64), part(field, b"\xff\xfe"), fixed(field, I32)):
            yield log(kind(75) + other + part(75, put(1, 7)))


def faults():
    whole = kind(75) + put(100, 300) + fixed(101, I64) + part(102, b"abc") + fixed(103, I32) + part(75, put(1, 7))
    yield "# ==== no type"
    yield log(b"")
    yield log(part(75, put(1, 7)))
    yield log(part(2, b"") + put(3, 1))
    yield "# ==== each front of a command"
    yield from (log(whole[:length]) for length in range(len(whole) + 1))
    yield "# ==== wrong wire types, before the value, behind another fault, without a type"
    for field in (TYPE, *MESSAGES):
        for code in range(8):
            yield log(kind(75) + varint(field * 8 + code) + b"\x00" * 8)
            yield log(varint(field * 8 + code))
    yield "# ==== wire types that are broken in any field, keys of field 0 and of 2^32 and more"
    for code in range(8):
        yield log(kind(75) + part(75, b"") + varint(100 * 8 + code) + b"\x00" * 8)
        yield log(kind(75) + varint(code) + b"\x00" * 8)
        yield log(kind(75) + varint(2**32 + 8 + code) + b"\x00" * 8)
    yield "# ==== values that are broken"
    for value in (b"\xff" * 9 + b"\x02", b"\xff" * 10, b"\xff" * 9 + b"\x01"):
        yield log(varint(TYPE * 8) + value)
        yield log(kind(75) + varint(75 * 8 + LEN) + value)


def drawn():
    yield "# ==== drawn: fields in any order, some bytes changed"
    rng = random.Random(32)
    for _ in range(150):
        message = rng.choice([b"", put(1, rng.getrandbits(rng.randrange(1, 65))), part(2, b"x") + put(1, 8)])
        field = rng.choice(list(MESSAGES))
        pieces = [kind(rng.choice([field, field, field, 2, 76])), part(field, message)]
        pieces += rng.choices([put(9, 1), fixed(10, I64), part(11, b"\xff"), fixed(12, I32), part(rng.choice(list(MESSAGES)), b"")], k=rng.randrange(3))
        rng.shuffle(pieces)
        data = bytearray(b"".join(pieces))
        if rng.randrange(3) == 0:
            data[rng.randrange(len(data))] ^= 1 << rng.randrange(8)
        yield log(bytes(data))


def made():
    head = "# Commands of a connection and what they carry, as a log of station, written and reckoned by tools/command_vectors.py."
    return logs.made("command", [head, *each(), *together(), *faults(), *drawn()])


if __name__ == "__main__":
    sys.exit(usage.generate(__doc__, made))
