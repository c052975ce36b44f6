#!/usr/bin/env python3
"""Judge: the topics watch, reckoned for tools/vectors.py. tools/watch_lines.py makes the vectors.

It is read from the specification's words: sets of topics are Python's own, put in order when they are packed, and the message is tested and taken apart by the
reader of tools/wire_vectors.py.
"""
import usage
from name_vectors import ROOM, Refused, utf8
from wire_vectors import WATCH, int32
from wire_vectors import read as read_message

LONGEST_TOPIC = 65535


def packed(topics):
    """Topics as in a set: each a length of 16 bits and its bytes, in byte order."""
    return b"".join(len(topic).to_bytes(2, "big") + topic for topic in sorted(topics))


def unpacked(data):
    """The topics of a packed set."""
    topics = []
    while data:
        end = 2 + int.from_bytes(data[:2], "big")
        if len(data) < max(2, end):
            raise Refused(30)
        topics.append(data[2:end])
        data = data[end:]
    if topics != sorted(set(topics)) or not all(map(utf8, topics)):
        raise Refused(30)
    return set(topics)


def replaced(snapshot):
    """What a snapshot asks for: the topics that it names, the new set, no lists."""
    named = snapshot.get(1, [])
    return named, set(named), None


def changed(old, diff):
    """What a diff asks for: it removes, then adds. Its lists are those added and those removed."""
    adds, removes = diff.get(1, []), diff.get(2, [])
    removed = old & set(removes)
    added = set(adds) - (old - removed)
    return adds + removes, (old - removed) | added, (added, removed)


def written(topics, lists):
    """The output. No message here is so long that its added list has 2^32 bytes."""
    if lists is None:
        return b"\0" + packed(topics)
    added, removed = map(packed, lists)
    return b"\1" + len(added).to_bytes(4, "big") + added + removed


def read(watch_id, old, message):
    """What the update asks for, or a refusal of the message."""
    update = read_message(WATCH, message)
    if update[1] != watch_id:
        raise Refused(29, update[1], watch_id)
    if 2 in update:
        return replaced(update[2])
    if 3 in update:
        return changed(old, update[3])
    if 4 in update:
        raise Refused(16, int32(update[4]), "0x" + update.get(5, b"").hex())
    raise Refused(17, update[1])


def updated(watch_id, buffer, used, message, room):
    """The new set, packed, and the output."""
    if used > len(buffer):
        raise Refused(30)
    named, topics, lists = read(watch_id, unpacked(buffer[:used]), message)
    if any(len(topic) > LONGEST_TOPIC for topic in named) or len(packed(topics)) > len(buffer):
        raise Refused(31)
    output = written(topics, lists)
    if len(output) > room:
        raise Refused(21)
    return packed(topics), output


def told(shown, watch_id, buffer, used, message, room):
    """The answer, and that all other bytes are as they were."""
    assert max(len(buffer), len(message), room) <= ROOM
    try:
        results = updated(watch_id, buffer, used, message, room)
    except Refused as refusal:
        return f"{refusal} same"
    return " ".join(["changed", *(str(len(result)) for result in results), *(shown(result) for result in results if shown), "same"])


def watch(watch_id, front, size, used, message, room):
    return told(lambda result: "0x" + result.hex(), watch_id, front[:size].ljust(size, b"\xaa"), used, message, room)


def long(watch_id, front, size, used, message, room, length):
    return told(None, watch_id, front[:size].ljust(size, b"a"), used, message[:length].ljust(length, b"a"), room)


# the commands: how each argument is read (n a number, b bytes), and the answer
COMMANDS = {"watch": ("nbnnbn", watch), "long": ("nbnnbnn", long)}


if __name__ == "__main__":
    usage.help_only(__doc__)
