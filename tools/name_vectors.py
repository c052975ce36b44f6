#!/usr/bin/env python3
"""Judge: texts, names and ranges, reckoned for tools/vectors.py.

UTF-8 is judged by Python's own decoder; names and ranges by a reading of the specification that shares nothing with the Rattle source (names are split as the
Rust splits them).
"""
import re

import usage

# the most bytes that the program takes as an argument, and lends as an output
ROOM = 66560


class Refused(Exception):
    """A refusal: its number, then the attached numbers, and the broker's text in hexadecimal."""

    def __str__(self):
        """A number that is negative is written as a word of 64 bits in two's complement."""
        return " ".join(["refused", *(str(word % (1 << 64)) if isinstance(word, int) else word for word in self.args)])


def utf8(text):
    try:
        text.decode("utf-8", "strict")
        return True
    except UnicodeDecodeError:
        return False


def yes(flag):
    return "yes" if flag else "no"


def key_range(start, end):
    if start > 0xFFFF:
        raise Refused(9, 1, start)
    if end > 0xFFFF:
        raise Refused(9, 2, end)
    if end < start:
        raise Refused(9, 3, start, end)
    return range(start, end + 1)


def parent_path(parent):
    if not parent.startswith(b"topic://"):
        raise Refused(12)
    path = parent[len(b"topic://"):]
    parts = path.split(b"/", 2)
    if len(parts) < 3 or not all(parts) or parts[2].endswith(b"/") or any(re.search(rb"[?#]", part) for part in parts):
        raise Refused(12)
    return path


def fit(text, room):
    if len(text) > room:
        raise Refused(21)
    return text.decode()


def build(room, parent, start, end, number):
    if not utf8(parent):
        raise Refused(7)
    key_range(start, end)
    return fit(b"segment://" + parent_path(parent) + b"/%04x-%04x-%d" % (start, end, number), room)


def parse(name):
    if not utf8(name):
        raise Refused(7)
    if not name.startswith(b"segment://") or b"/" not in name[10:]:
        raise Refused(18)
    path, _, descriptor = name[10:].rpartition(b"/")
    parent = b"topic://" + path
    parent_path(parent)
    words = descriptor.split(b"-")
    if len(words) != 3 or not all(re.fullmatch(rb"[0-9a-f]{4}", word) for word in words[:2]):
        raise Refused(18)
    if not re.fullmatch(rb"0|[1-9][0-9]*", words[2]) or int(words[2]) >= 1 << 64:
        raise Refused(18)
    start, end, number = int(words[0], 16), int(words[1], 16), int(words[2])
    key_range(start, end)
    return parent, start, end, number


def source(number, name):
    _, start, end, found = parse(name)
    if found != number:
        raise Refused(19, number, found)
    return f"{found} {start} {end}"


def touches(start, end, other_start, other_end):
    a, b = key_range(start, end), key_range(other_start, other_end)
    return yes(a.stop == b.start or b.stop == a.start)


def contains_range(start, end, other_start, other_end):
    a, b = key_range(start, end), key_range(other_start, other_end)
    return yes(b.start in a and b[-1] in a)


def overlap(count, *ends):
    held = set()
    assert len(ends) == 2 * count
    for start, end in zip(ends[::2], ends[1::2]):
        values = set(range(start, end + 1))
        if values & held:
            return "yes"
        held |= values
    return "no"


# the commands: how each argument is read (n a number, b bytes), and the answer
COMMANDS = {
    "utf8": ("b", lambda text: yes(utf8(text))),
    "build": ("nbnnn", build),
    "source": ("nb", source),
    "parent": ("nb", lambda room, name: fit(parse(name)[0], room)),
    "length": ("nn", lambda start, end: str(len(key_range(start, end)))),
    "contains": ("nnn", lambda start, end, value: yes(value in key_range(start, end))),
    "contains_range": ("nnnn", contains_range),
    "touches": ("nnnn", touches),
    "overlap": ("n*", overlap),
}


if __name__ == "__main__":
    usage.help_only(__doc__)
