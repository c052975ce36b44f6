#!/usr/bin/env python3
"""Generator: a line of crates.txt names the crates that the crate's own files name, and those whose types these use, in the order in which they stand there.

    python3 tools/dependencies.py [--check | --write]

A crate is named in code by a path (`slice_int::read_u64`, `use wire::Key`) and in definitions and proofs by its modules (`Rattle.wire.specs`). A value may
hold one of a type that only its own crate names: the checker asks for the crate that declares it. What stands before the colon (`export staticlib`) stays
as it is written, and so do the kit's libraries, before the others; what those of a line use besides is found by rt.
"""
import functools
import re
import sys
from pathlib import Path

import usage

ROOT = Path(__file__).resolve().parent.parent
LINE = re.compile(r"^(\w+)((?: [\w=]+)*):(.*)$", re.M)
CODE = re.compile(r"(?<![\w:])(\w+)::|^\s*(?:pub )?use (\w+)\b", re.M)
MODULE = re.compile(r"\bRattle\.(\w+)")
# a type by its path, or among those that one `use` takes
TYPE = re.compile(r"(?<![\w:])(\w+)::(?:\{(?:[^{}]*[\s,{])?)?[A-Z]\w*[a-z]")
COMMENT = re.compile(r"^\s*//.*$", re.M)


def files(crate, *suffixes):
    """The texts of a crate's files, without comments."""
    paths = sorted((ROOT / "crates" / crate).rglob("*"))
    return [COMMENT.sub("", path.read_text(encoding="utf-8")) for path in paths if path.suffix in suffixes]


def named_by(crate):
    """The names that a crate's files have in the place of a crate's."""
    code = {name for text in files(crate, ".rt") for pair in CODE.findall(text) for name in pair}
    return code | {name for text in files(crate, ".rt", ".antt") for name in MODULE.findall(text)}


@functools.cache
def typed_by(crate):
    """The crates whose types a crate's code names."""
    return {name for text in files(crate, ".rt") for name in TYPE.findall(text)}


def needed_by(crate, order):
    """What a crate names, and the types that those use, and so on."""
    found, queue = set(), sorted(named_by(crate) & set(order))
    while queue:
        d = queue.pop()
        if d not in found:
            found.add(d)
            queue += sorted(typed_by(d) & set(order))
    return found - {crate}


def lines():
    """crates.txt as the files have it."""
    text = (ROOT / "crates.txt").read_text(encoding="utf-8")
    order = [name for name, *_ in LINE.findall(text)]

    def line(m):
        kit = [d for d in m[3].split() if d not in order]
        needed = needed_by(m[1], order)
        return " ".join([f"{m[1]}{m[2]}:", *kit, *(d for d in order if d in needed)])

    return LINE.sub(line, text)


if __name__ == "__main__":
    sys.exit(usage.generate(__doc__, lambda: {ROOT / "crates.txt": lines()}))
