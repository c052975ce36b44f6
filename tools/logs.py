#!/usr/bin/env python3
"""Part of tools/vectors.py: logs of the program `station` as vectors: vectors/NAME.log, and in vectors/NAME.out what station should write.

tools/NAME_vectors.py writes the log and reckons the answers, by other means than the code's; tools/vectors.py holds the
two files to it; the gate has station run every log.
"""
import pathlib
import sys

import refusal_table
import usage
from name_vectors import Refused

VECTORS = pathlib.Path(__file__).resolve().parent.parent / "vectors"


def argument(kind, word):
    """A word of a line as its letter says: n a number, else bytes."""
    if kind == "n":
        return int(word)
    return bytes.fromhex(word[2:]) if word.startswith("0x") else word.encode()


def line(name, *words):
    """A line of a log; bytes in hexadecimal."""
    return " ".join([name, *("0x" + word.hex() if isinstance(word, bytes) else str(word) for word in words)])


def made(name, lines):
    """The log of this name, by its path."""
    return {VECTORS / f"{name}.log": "".join(line + "\n" for line in lines)}


def answer(text, commands):
    """What a line is answered, and whether it is refused."""
    name, *words = text.split(" ")
    kinds, command = commands[name]
    assert len(kinds) == len(words), text
    try:
        return f"{name} {command(*map(argument, kinds, words))}", False
    except Refused as refusal:
        number, *values = refusal.args
        return f"{name} {refusal_table.told(number, values)}", True


def output(log, commands):
    """The lines that station should write: an answer for each line that is no comment, then the counts."""
    numbered = [(number, text) for number, text in enumerate(log, 1) if text and not text.startswith("#")]
    lines = [(number, *answer(text, commands)) for number, text in numbered]
    refused = sum(is_refused for _, _, is_refused in lines)
    counts = f"{len(lines)} calls: {len(lines) - refused} accepted, {refused} refused; 0 damaged lines"
    return [*(f"{number} {told}" for number, told, _ in lines), counts]


def check(name, commands, write):
    """vectors/NAME.out has what is reckoned, or gets it."""
    log, out = VECTORS / f"{name}.log", VECTORS / f"{name}.out"
    told = output(log.read_text(encoding="ascii").splitlines(), commands)
    if write:
        out.write_text("".join(text + "\n" for text in told), encoding="ascii")
    held = out.read_text(encoding="ascii").splitlines()
    for have, should in zip(held, told):
        if have != should:
            sys.exit(f"vectors/{name}.out has '{have}', should have '{should}'")
    if len(held) != len(told):
        sys.exit(f"vectors/{name}.out has {len(held)} lines, should have {len(told)}")
    print(f"vectors/{name}.log: {len(told) - 1} lines as reckoned")


def check_all(judges, write):
    """Every judge has its log and its output, and there are no others."""
    for name, commands in judges.items():
        check(name, commands, write)
    for suffix in ("log", "out"):
        if (found := sorted(path.stem for path in VECTORS.glob(f"*.{suffix}"))) != sorted(judges):
            sys.exit(f"vectors/*.{suffix}: {', '.join(found)}; should be {', '.join(sorted(judges))}")


if __name__ == "__main__":
    usage.help_only(__doc__)
