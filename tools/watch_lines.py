#!/usr/bin/env python3
"""Generator: the vectors of the topics watch, a part of crates/test_vectors/stdin. The random ones come from one seed.

Sets are put into bytes by tools/watch_vectors.py, which judges what the program makes of them.
"""
import itertools
import random
import sys

import usage
from assignment_vectors import number_field, part_field, varint
from vectors import replaced
from watch_vectors import LONGEST_TOPIC, packed

HIGHEST = (1 << 64) - 1
WATCH = 9
WATCH_ID = number_field(1, WATCH)
# how many topics the code sorts at a time
WINDOW = 512


def watch(held, message, buffer=None, room=None, used=None, watch_id=WATCH):
    """A line. The set is given by its topics or by its bytes. Where no sizes are given buffer and output have room enough."""
    front = held if isinstance(held, bytes) else packed(held)
    size = len(front) + len(message) if buffer is None else buffer
    space = len(front) + len(message) + 8 if room is None else room
    return f"watch {watch_id} 0x{front.hex()} {size} {len(front) if used is None else used} 0x{message.hex()} {space}"


def topics(field, names):
    return b"".join(part_field(field, name) for name in names)


def snapshot(*names):
    return WATCH_ID + part_field(2, topics(1, names))


def diff(added=(), removed=()):
    return WATCH_ID + part_field(3, topics(1, added) + topics(2, removed))


def text(*names):
    return [name.encode() for name in names]


A, B, C, D = ABCD = text("a", "b", "c", "d")
PREFIXES = text("a", "aa", "ab", "b")
# one to four bytes for a character, the lowest and the highest of each; byte order is not that of 16-bit units
CHARACTERS = text("\x01", "z", "\x7f", "\x80", "é", "\u07ff", "\u0800", "\ud7ff", "\ue000", "\uffff", "\U00010000", "\U0010ffff")


# ---- what an event does


def snapshots():
    yield "# snapshots: into an empty set; over another, longer and shorter; none; a topic twice; the empty topic; from a falling message"
    for held, names in (
        ([], ABCD), ([A], ABCD), (ABCD, [C]), (ABCD, []), ([], []), ([], [A]), ([A], [A]), ([B], [A, B, A, A, B]), ([], [b""]), ([b"", A], [A, b"", b""]),
        ([A], ABCD[::-1]), (PREFIXES, text("x", "longer", "the longest of them")),
    ):
        yield watch(held, snapshot(*names))
    yield "# byte order: a topic stands before its continuations; bytes above 127 stand behind those below; every order of four"
    for names in itertools.permutations(PREFIXES):
        yield watch([A], snapshot(*names))
    yield watch(CHARACTERS[3:6], snapshot(*CHARACTERS[::-1]))
    yield watch([], snapshot(*text("ab", "a\x00", "a", "a\x00\x00", "", "\x00", "aé", "é", "éa")))
    yield "# fields that a snapshot does not have are no topics: field 2, also where it is not UTF-8; numbers and fixed ones between the topics"
    others = part_field(2, b"\xff") + topics(1, [B]) + number_field(3, 7) + b"\x51" + bytes(8) + topics(1, [A]) + b"\x55" + bytes(4)
    yield watch([C], WATCH_ID + part_field(2, others))
    yield watch([C], number_field(9, 1) + part_field(2, topics(1, [A])) + part_field(6, b"\xff") + WATCH_ID)
    yield "# keys and lengths in more bytes than they need; topics of 127 and of 128 bytes"
    yield watch([], WATCH_ID + b"\x92\x80\x00\x88\x00" + b"\x8a\x00\x83\x80\x00abc")
    yield watch([], snapshot(b"x" * 128, b"x" * 127))


def diffs():
    yield "# diffs: nothing; what the set has added, what it lacks removed; one topic more or less at each place"
    for held, added, removed in (
        ([], [], []), (ABCD, [], []), (ABCD, ABCD, []), ([], [], ABCD), (ABCD, [], ABCD), ([], ABCD, []), ([B, C], [A], []), ([A, C], [B], []), ([A, B], [C], []),
        ([A, B, C], [], [A]), ([A, B, C], [], [B]), ([A, B, C], [], [C]), ([B], text("a", "aa", "ba", "c"), []), ([A, B, C], [D], [A]), ([B, C, D], [A], [D]),
        (ABCD, text("longer"), [A]), (text("longer", "z"), [A], text("longer")),
    ):
        yield watch(held, diff(added, removed))
    yield "# a topic in both lists: in the set it is listed twice and stays; not in the set it is only added"
    for held, added, removed in (
        ([A], [A], [A]), ([], [A], [A]), ([B], [A], [A]), (ABCD, [B], [B]), ([A, C], [B, C], [B, C]), (ABCD, ABCD, ABCD), ([], ABCD, ABCD), ([A, B], [B, C], [A, B]),
    ):
        yield watch(held, diff(added, removed))
    yield "# topics that come again in a list: once each"
    for held, added, removed in (
        ([], [A, A], []), ([A], [], [A, A]), ([A], [A, A], [A, A]), ([B], [C, A, C, A], [B, B]), ([], [], [A, A]), ([B], [B, A, B], [C, B, C]),
    ):
        yield watch(held, diff(added, removed))
    yield "# the empty topic: in the set, added, removed, in both lists"
    for held, added, removed in (([], [b""], []), ([b""], [], [b""]), ([b""], [b""], []), ([b""], [b""], [b""]), ([A], [b""], [b""]), ([b"", A], [B], [b""]), ([A], [b""], [A])):
        yield watch(held, diff(added, removed))
    yield "# the two lists mixed on the wire, and the removed ones first; other fields between; byte order"
    mixed = topics(2, [C]) + topics(1, [D]) + part_field(3, b"\xff") + topics(2, [A]) + number_field(5, HIGHEST) + topics(1, [C])
    yield watch([A, B, C], WATCH_ID + part_field(3, mixed))
    yield watch([A, B], part_field(3, topics(2, [B, A]) + topics(1, [B])) + WATCH_ID)
    yield watch(CHARACTERS[::2], diff(CHARACTERS[::-1], CHARACTERS[::4]))
    yield watch(PREFIXES, diff(text("ac", "aaa", ""), text("aa", "abc", "b")))


def again():
    """Messages with fields that come again (02 b)."""
    one, two, three, none = (part_field(2, topics(1, names)) for names in ([A], [C, B], [D], []))
    more, less, both, same = (part_field(3, topics(1, adds) + topics(2, removes)) for adds, removes in (([A], []), ([], [B]), ([D, C], [A, D]), ([], [])))
    yield "# two and three snapshots: merged, also with an empty one; two and three diffs"
    for events in ((one, two), (two, one), (one, two, three), (one, one), (none, one), (one, none), (none, none), (more, less), (less, more), (more, both, less), (both, same), (more, more)):
        yield watch([B], WATCH_ID + b"".join(events))
    yield "# the last of the two wins, and the replaced one leaves no trace; the same one again, with the other between: only the last counts"
    for events in ((one, more), (less, two), (one, less, three), (more, two, both), (one, two, less), (more, less, one), (one, less, both), (both, none), (two, same), (one, more, two, less, none)):
        yield watch([B], WATCH_ID + b"".join(events))
    yield "# unknown fields, the code and the text between two parts of an event; the id, the code and the text twice: the last"
    yield watch([B], WATCH_ID + more + number_field(9, 2) + part_field(7, b"\xff") + less)
    yield watch([B], WATCH_ID + one + number_field(4, 1) + part_field(5, A) + two)
    for numbers in ((8, 9), (9, 8), (9, 9)):
        yield watch([B], b"".join(number_field(1, number) for number in numbers) + one)
    yield watch([B], number_field(1, 8) + one + WATCH_ID)
    yield watch([B], WATCH_ID + number_field(4, 1) + part_field(5, A) + number_field(4, 2) + part_field(5, B))
    yield watch([B], WATCH_ID + number_field(4, 1) + part_field(5, A) + part_field(5, b"") + number_field(4, 0))
    yield "# the topics of all parts, in byte order: rising over the parts, falling over them; the buffer and the output just long enough, and one byte short"
    yield watch([], WATCH_ID + part_field(2, topics(1, [A, B])) + part_field(2, topics(1, [C, D])))
    yield watch([], WATCH_ID + part_field(2, topics(1, [C, D])) + part_field(2, topics(1, [A, B])))
    for buffer, room in ((9, 10), (8, 10), (9, 9)):
        yield watch([B], WATCH_ID + one + two, buffer=buffer, room=room)
    for buffer, room in ((3, 11), (3, 10)):
        yield watch([B], WATCH_ID + more + less, buffer=buffer, room=room)


def sizes():
    yield "# the output just long enough, one byte short, and none: of a snapshot, of a diff, of an empty one of each"
    for held, message, longest in (
        ([D], snapshot(C, A), 7), ([], snapshot(), 1), ([B, D], diff([A, C], [D, B]), 17), ([A], diff([], [A]), 8), ([], diff([A]), 8), ([A], diff(), 5),
    ):
        for room in (longest, longest - 1, 0):
            yield watch(held, message, room=room)
    yield watch([A], diff([], [A]), room=4)
    yield "# the set's buffer just long enough, one byte short, and as long as the set was: a topic in both lists counts once, one removed makes room"
    for held, message, longest in (
        ([D], snapshot(C, A), 6), ([], snapshot(A), 3), ([B, D], diff([A, C], [D]), 9), ([A], diff([A], [A]), 3), ([A], diff([A, B], []), 6), ([A], diff(text("bb"), [A]), 4),
    ):
        for buffer in (longest, longest - 1):
            yield watch(held, message, buffer=max(buffer, len(packed(held))))
    yield watch([A, B], diff(text("cccc"), [A, B]), buffer=6)
    yield watch([A, B], diff(text("ccccc"), [A, B]), buffer=6)
    yield watch([], snapshot(), buffer=0)
    yield watch([], snapshot(b""), buffer=2)
    yield watch([], snapshot(b""), buffer=1)
    yield watch([], diff([b""]), buffer=0)
    yield "# 31 before 21"
    yield watch([D], snapshot(C, A), buffer=5, room=6)
    yield watch([D], diff([A, B]), buffer=8, room=0)


# ---- refusals of the set, the message, the watch


def malformed_sets():
    yield "# a set whose last length or text is cut; with a byte behind it; not UTF-8; falling; a topic twice; the length beyond the buffer"
    whole = packed([A, b"bcd"])
    for size in range(1, len(whole)):
        yield watch(whole, snapshot(C), used=size)
    for front in (
        b"\xff\xff", whole + b"\0", packed([b"\xff"]), packed([b"\xc3", b"\xc3\xa9"]), packed([b"\xc0\x80"]), packed([b"\xed\xa0\x80"]), packed([A]) + packed([B, b"\x80"]),
        packed([B]) + packed([A]), packed([A]) + packed([A]), packed([A, B]) + packed([B]), packed([b""]) * 2, packed([A]) + packed([b""]), packed([b"ab"]) + packed([A]),
        b"\0\2\xc3\xa9" + packed([b"z"]), b"\0\1\xc3\0\1\xa9", b"\xaa" * 7,
    ):
        yield watch(front, snapshot(C))
    for buffer, used in ((7, 8), (0, 1), (3, HIGHEST), (5, 6)):
        yield watch(whole, snapshot(C), buffer=buffer, used=used)
    yield "# bytes behind the set may be anything; what is there stays"
    yield watch(b"\xff" * 6, snapshot(A), used=0)
    yield watch(packed([B]) + packed([A]), diff([C]), used=3)
    yield watch(packed([A]) + b"\0", diff([], [A]), used=3)
    yield "# 30 before 3, 29, 16, 17, 31 and 21"
    for message in (b"\xff", b"", number_field(1, 8), WATCH_ID + number_field(4, 1), WATCH_ID, snapshot(A), diff([A])):
        yield watch(b"\0", message, buffer=1, room=0)


def faulty_messages():
    good, event = snapshot(A), topics(1, [A])
    yield "# cut at every length; 3: a group, a key of field 0, an over-long number, a length beyond the message or beyond its event"
    for size in range(len(good)):
        yield watch([B], good[:size])
    for message in (
        WATCH_ID + b"\x13", WATCH_ID + b"\x0b", WATCH_ID + b"\x02\0", b"\x08" + b"\xff" * 9 + b"\2", b"\x88\x80\x80\x80\x10\x09", WATCH_ID + b"\x12\x03\x0a\x02a" + A,
        WATCH_ID + part_field(2, event + b"\x0a"), WATCH_ID + part_field(3, b"\x12\x02a") + A, WATCH_ID + part_field(3, event + b"\x1b"), WATCH_ID + b"\x2a\x05ab",
    ):
        yield watch([B], message)
    yield "# 4: a known field of another type, in the message and in its event"
    for message in (
        part_field(1, A), WATCH_ID + number_field(2, 0), WATCH_ID + number_field(3, 0), WATCH_ID + part_field(4, A), WATCH_ID + number_field(5, 0),
        WATCH_ID + part_field(2, number_field(1, 0)), WATCH_ID + part_field(3, event + number_field(2, 0)), WATCH_ID + part_field(3, b"\x0d" + bytes(4)),
    ):
        yield watch([B], message)
    yield "# 3, 4 and 7 in what comes again, in an event that another replaces, in a text that is overridden"
    for message in (
        good + b"\x08\xff", good + b"\x1a\x7f", diff([A]) + part_field(3, b"\xff"), good + part_field(1, A), good + number_field(3, 0),
        snapshot(b"\xff") + part_field(3, event), diff([A], [b"\x80"]) + part_field(2, event), diff([A]) + part_field(2, b"\x0a\x02a") + part_field(3, event),
        good + part_field(5, b"\xff") + part_field(5, A), good + part_field(5, A) + part_field(5, b"\xff"),
    ):
        yield watch([B], message)
    yield "# 6: no id; found when the whole message has been read, behind a 7 in the event, a 4 and a 3, also of an event that comes later"
    for message in (
        b"", part_field(2, event), part_field(3, b""), number_field(4, 1), part_field(2, topics(1, [b"\xff"])), part_field(3, event) + number_field(5, 1),
        part_field(2, event) + part_field(3, b"\x0b"), part_field(3, event) + part_field(3, topics(2, [b"\xff"])), part_field(2, event) * 2,
    ):
        yield watch([B], message)
    yield "# 7: in a topic of a snapshot, added, removed; in the broker's text; the first fault is told"
    for message in (
        snapshot(b"\xff"), snapshot(A, b"\xed\xa0\x80", B), diff([b"\xc3"], [A]), diff([A], [b"\xf4\x90\x80\x80"]), good + part_field(5, b"\x80"),
        WATCH_ID + part_field(3, topics(2, [b"\x80"]) + b"\x0f"), WATCH_ID + part_field(3, b"\x0f" + topics(2, [b"\x80"])),
    ):
        yield watch([B], message)
    yield "# 3 to 7 before 29, 16, 17, 31 and 21"
    other = number_field(1, 8)
    for message in (other + b"\xff", other + number_field(2, 1), other + other, number_field(4, 1), other + part_field(2, topics(1, [b"\xff"])), WATCH_ID + number_field(4, 1) + b"\0"):
        yield watch([B], message, room=0)


def other_answers():
    yield "# 29: before 16, 17, 31 and 21; ids at the limits, and in more bytes than they need"
    other = number_field(1, 8)
    for message in (other + part_field(2, topics(1, [A])), other + part_field(3, b""), other + number_field(4, 1), other, other + part_field(5, A)):
        yield watch([B], message, buffer=3, room=0)
    for watch_id, number in ((0, 0), (HIGHEST, HIGHEST), (HIGHEST, 0), (0, HIGHEST), (1 << 32, 0), (9, (1 << 32) + 9)):
        yield watch([B], number_field(1, number) + part_field(2, topics(1, [A])), watch_id=watch_id)
    yield watch([B], b"\x88\x00\x89\x80\x80\x00" + part_field(2, topics(1, [A])))
    yield "# 16: with a text, with an empty one, with none; codes of 0, unknown, negative, cut to 32 bits; 16 before 31 and 21"
    for more in (part_field(5, "no such näme".encode()), part_field(5, b""), b""):
        yield watch([B], WATCH_ID + number_field(4, 23) + more)
    yield watch([B], part_field(5, A) + WATCH_ID + number_field(4, 3))
    for code in (0, 1, 0x7FFFFFFF, 0x80000000, 0xFFFFFFFF, HIGHEST, HIGHEST - 6, 1 << 32, (5 << 32) + 4, 1 << 63):
        yield watch([B], WATCH_ID + number_field(4, code), buffer=3, room=0)
    yield "# 17: neither an event nor a code; a text alone; other fields alone"
    for more in (b"", part_field(5, A), number_field(6, 1)):
        yield watch([B], WATCH_ID + more, buffer=3, room=0)
    yield watch([], number_field(1, HIGHEST), watch_id=HIGHEST)
    yield "# an event outranks a code, before it and behind it; also an empty event, and one that is refused"
    code = number_field(4, 5) + part_field(5, A)
    for message in (snapshot(A) + code, code + snapshot(A), diff([A], [B]) + code, code + diff([A]), WATCH_ID + part_field(2, b"") + code, code + WATCH_ID + part_field(3, b"")):
        yield watch([B], message)
    yield watch([B], diff([A]) + code, buffer=3)
    yield watch([B], diff([A]) + code, room=7)


# ---- topics too long for a line


def long(event, field, length, buffer, room, held=None, before=b"", used=None):
    """A line with one topic of so many times `a` in an event of the message, behind other fields of it; the set may hold such a topic."""
    head = varint(8 * field + 2) + varint(length)
    inner = before + head
    message = WATCH_ID + varint(8 * event + 2) + varint(len(inner) + length) + inner
    front = b"" if held is None else held.to_bytes(2, "big")
    size = 0 if held is None else 2 + held
    return f"long {WATCH} 0x{front.hex()} {buffer} {size if used is None else used} 0x{message.hex()} {room} {len(message) + length}"


def long_topics():
    most, one = LONGEST_TOPIC, LONGEST_TOPIC + 2
    yield "# a topic of 65,535 bytes in a snapshot, added, removed: buffer and output just long enough, and one byte short"
    for buffer, room in ((one, one + 1), (one, one), (one - 1, one + 1)):
        yield long(2, 1, most, buffer, room)
    for buffer, room in ((one, one + 5), (one, one + 4), (one - 1, one + 5)):
        yield long(3, 1, most, buffer, room)
    for room in (one + 5, one + 4):
        yield long(3, 2, most, one, room, held=most)
    yield "# in the set it is not added again; one that the set lacks is not removed; another set's is replaced"
    yield long(3, 1, most, one, 5, held=most)
    yield long(3, 2, most, one, 5)
    yield long(3, 2, most, one, 5, held=most - 1)
    yield long(2, 1, most, one, one + 1, held=most - 1)
    yield long(3, 1, most, one + 600, one + 5, held=598)
    yield long(3, 1, most, one + 599, one + 5, held=598)
    yield "# a topic of 65,536 bytes is 31 in a snapshot, added, removed; before 21; also behind others"
    for event, field in ((2, 1), (3, 1), (3, 2)):
        yield long(event, field, most + 1, one + 600, one + 600)
        yield long(event, field, most + 1, 3, 0)
        yield long(event, field, most + 1, one + 600, one + 600, before=topics(1, [B, A]) + topics(2, [A]))
    yield long(3, 2, most + 1, one + 600, one + 600, held=most)
    yield long(3, 1, most + 1, one + 600, one + 600, held=7)
    yield "# in a field that the event does not have it is no topic; nor is it one behind a fault"
    yield long(2, 2, most + 1, 6, 7, before=topics(1, [B, A]))
    yield long(3, 3, most + 1, 3, 8, before=topics(1, [B]))
    yield long(3, 2, most + 1, one, one, before=topics(1, [b"\xff"]))
    yield "# a set with a topic of 65,535 bytes that ends early, or goes on"
    yield long(2, 1, 1, one, 4, held=most, used=one - 1)
    yield long(2, 1, 1, one + 1, 4, held=most, used=one + 1)
    yield long(2, 1, 1, one - 1, 4, held=most)


# ---- more topics than the code sorts at a time


def many(count, start=0):
    """Topics of two letters, rising."""
    letters = "0123456789abcdefghijklmnopqrstuvwxyz"
    return [(letters[number // 36] + letters[number % 36]).encode() for number in range(start, start + count)]


def windows():
    rng = random.Random(9)

    def shuffled(names):
        return rng.sample(names, len(names))

    rows = many(600)
    yield "# snapshots of 600 topics: rising, shuffled, falling; two in wrong order, at the ends and in the middle; some twice"
    swapped = rows[:299] + [rows[300], rows[299]] + rows[301:]
    for names in (rows, shuffled(rows), rows[::-1], swapped, [rows[-1], *rows[1:-1], rows[0]], shuffled(rows + rows[::3])):
        yield watch([A], snapshot(*names))
    yield "# as many as a window has, one more and one less, twice as many and one more: shuffled"
    for count in (WINDOW - 1, WINDOW, WINDOW + 1, 2 * WINDOW, 2 * WINDOW + 1):
        yield watch([], snapshot(*shuffled(many(count))))
    yield "# the same number, rising; as many, each three times"
    for count in (WINDOW, WINDOW + 1, 2 * WINDOW):
        yield watch([], snapshot(*many(count)))
    yield watch([], snapshot(*shuffled(3 * many(WINDOW))))
    yield "# diffs of 600 added: rising and shuffled, to an empty set, and to a set that has a half of them and others"
    half = many(600, 300)
    for held in ([], half):
        yield watch(held, diff(rows))
        yield watch(held, diff(shuffled(rows)))
    yield "# diffs of 600 removed: rising and shuffled"
    yield watch(half, diff([], rows))
    yield watch(half, diff([], shuffled(rows)))
    yield "# 600 added and 600 removed, a half of them in both lists, of a set that has some of each: each list rising or shuffled"
    held, added, removed = many(900)[::2], many(600, 150), many(600, 450)
    for adds, removes in itertools.product((added, shuffled(added)), (removed, shuffled(removed))):
        yield watch(held, diff(adds, removes))
    yield "# the output and the buffer one byte short"
    new = (set(held) - set(removed)) | set(added)
    yield watch(held, diff(shuffled(added), removed), buffer=len(packed(new)))
    yield watch(held, diff(shuffled(added), removed), buffer=len(packed(new)) - 1)
    yield watch([], snapshot(*shuffled(rows)), room=len(packed(rows)))


# ---- random ones


def some_sets():
    rng = random.Random(20)
    names = sorted({"".join(rng.choices("abé", k=rng.randrange(4))).encode() for _ in range(60)})

    def some(most):
        return rng.choices(names, k=rng.randrange(most))

    yield "# random sets and events over a few topics, the buffer and the output near to what is needed"
    for _ in range(60):
        held = set(some(8))
        message = rng.choice((snapshot(*some(8)), diff(some(6), some(6)), diff(some(6), some(6)), diff(some(4), rng.choices(sorted(held) + names[:1], k=4))))
        yield watch(held, message, buffer=len(packed(held)) + rng.randrange(24), room=rng.randrange(8, 48))


def made():
    groups = (snapshots(), diffs(), again(), sizes(), malformed_sets(), faulty_messages(), other_answers(), long_topics(), windows(), some_sets())
    return replaced("# ==== the topics watch: by tools/watch_lines.py", (line for group in groups for line in group))


if __name__ == "__main__":
    sys.exit(usage.generate(__doc__, made))
