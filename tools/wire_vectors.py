#!/usr/bin/env python3
"""Judge: Protocol Buffers, read byte by byte from the specification's words, for tools/vectors.py."""
import usage
from name_vectors import Refused, utf8

UPDATE, RESPONSE, ASSIGNMENT, SEGMENT, INT_RANGE, WATCH, SNAPSHOT, DIFF = range(8)

# field number: what it holds (None a number, "text", or a message), and how often: "required", "optional", "repeated", or "oneof", of which a message here has one
SCHEMA = {
    UPDATE: {1: (None, "required"), 2: (ASSIGNMENT, "required")},
    RESPONSE: {1: (None, "required"), 2: (None, "optional"), 3: ("text", "optional"), 4: (ASSIGNMENT, "optional")},
    ASSIGNMENT: {1: (None, "required"), 2: (SEGMENT, "repeated")},
    SEGMENT: {1: (None, "required"), 2: (None, "required"), 3: (None, "required"), 4: ("text", "required"), 5: (INT_RANGE, "repeated")},
    INT_RANGE: {1: (None, "required"), 2: (None, "required")},
    WATCH: {1: (None, "required"), 2: (SNAPSHOT, "oneof"), 3: (DIFF, "oneof"), 4: (None, "optional"), 5: ("text", "optional")},
    SNAPSHOT: {1: ("text", "repeated")},
    DIFF: {1: ("text", "repeated"), 2: ("text", "repeated")},
}


def read_varint(data, at):
    value = 0
    for place in range(10):
        if at + place >= len(data):
            raise Refused(3)
        byte = data[at + place]
        if place == 9 and byte > 1:
            raise Refused(3)
        value |= (byte & 0x7F) << (7 * place)
        if byte < 0x80:
            return value, at + place + 1
    raise Refused(3)


def read_key(data, at):
    key, at = read_varint(data, at)
    if key >= 1 << 32 or key < 8 or key % 8 in (3, 4, 6, 7):
        raise Refused(3)
    return key // 8, key % 8, at


def read_content(data, wire, at):
    """The number or the bytes behind a key of a wire type, and the place behind them."""
    if wire == 0:
        return read_varint(data, at)
    size, at = read_varint(data, at) if wire == 2 else ({1: 8, 5: 4}[wire], at)
    if size > len(data) - at:
        raise Refused(3)
    return data[at:at + size], at + size


def scan(kind, data):
    """3, 4 and 7 in byte order: a field's key, its type, then its length or value. Fields may come again."""
    at = 0
    while at < len(data):
        number, wire, at = read_key(data, at)
        holds, _ = SCHEMA[kind].get(number, ("any", None))
        if holds != "any" and wire != (0 if holds is None else 2):
            raise Refused(4)
        content, at = read_content(data, wire, at)
        if holds == "text" and not utf8(content):
            raise Refused(7)
        if isinstance(holds, int):
            scan(holds, content)


def merged(kind, data, value=None):
    """What a message without a 3, 4 or 7 says (02 b): of numbers and texts the last, of repeated fields all, of singular messages one, merged, of a oneof the last."""
    value, at = {} if value is None else value, 0
    while at < len(data):
        number, wire, at = read_key(data, at)
        content, at = read_content(data, wire, at)
        holds, label = SCHEMA[kind].get(number, ("any", None))
        message = isinstance(holds, int)
        if label == "repeated":
            value.setdefault(number, []).append(merged(holds, content) if message else content)
        elif label:
            if label == "oneof":
                value = {other: held for other, held in value.items() if other == number or SCHEMA[kind][other][1] != "oneof"}
            value[number] = merged(holds, content, value.get(number)) if message else content
    return value


def lacks(kind, value):
    """A required field is missing, in the message or in one that it holds."""
    for number, (holds, label) in SCHEMA[kind].items():
        if label == "required" and number not in value:
            return True
        inner = value.get(number, []) if label == "repeated" else [value[number]] if number in value else []
        if isinstance(holds, int) and any(lacks(holds, one) for one in inner):
            return True
    return False


def read(kind, data):
    """What the message says, or its first fault: 6 comes when the whole message has been read and merged."""
    scan(kind, data)
    value = merged(kind, data)
    if lacks(kind, value):
        raise Refused(6)
    return value


def check(kind, data):
    read(kind, data)
    return "valid"


def varint(data):
    try:
        value, size = read_varint(data, 0)
    except Refused:
        return "broken"
    return f"{value} {size}"


def contents(field, wires, data):
    """What the field holds in the wire types, each time that it comes, up to the first broken field."""
    found, at = [], 0
    try:
        while at < len(data):
            number, wire, at = read_key(data, at)
            content, at = read_content(data, wire, at)
            if number == field and wire in wires:
                found.append(content)
    except Refused:
        pass
    return found


def last(field, data):
    found = contents(field, (0,), data)
    return str(found[-1]) if found else "absent"


def text(field, data):
    found = contents(field, (2,), data)
    return found[-1].decode() if found else ""


def int32(value):
    return int.from_bytes((value % (1 << 32)).to_bytes(4, "big"), "big", signed=True)


# the commands: how each argument is read (n a number, b bytes), and the answer
COMMANDS = {
    "varint": ("b", varint),
    "fault": ("nb", check),
    "last": ("nb", last),
    "text": ("nb", text),
    "uint32": ("n", lambda value: str(value % (1 << 32))),
    "int32": ("nn", lambda a, b: ("equal", "greater", "less")[(int32(a) > int32(b)) - (int32(a) < int32(b))]),
}


if __name__ == "__main__":
    usage.help_only(__doc__)
