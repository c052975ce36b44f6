#!/usr/bin/env python3
"""Brings the repository's own names in specs/, proofs/ and clauses to the spelling of today's Rattle.

usage: python3 tools/respell.py [--list]      at the top of the repository, once, behind the toolchain's own port.py

A part of a name that begins in lower case and has capitals inside, as `bytesOf` in `be-bytesOf`, becomes snake case: `be-bytes_of`. A part that begins with a
capital is a type's and keeps its spelling. Names of functions, types and fields of src/, strings and the toolchain's names are left. Must-fail edits and the
documents are turned by the same table. Where a name would fall together with one that is there, OTHER has another for it.
With --list the table is printed and nothing is written.
"""
import collections
import glob
import re
import sys

WORD = re.compile(r"(?<![\w])[^\W\d][\w'₀-₉-]*")
CAMEL = re.compile(r"^[a-z][a-z0-9]*[A-Z]")
OTHER = {
    "isOpen": "is_open_at",
    "hasFloor": "floor_is_set",
    "rowsIn": "rows_of_delta",
    "matchBy": "match_if",
    "keyOf": "key_read",
    "isDigit": "is_digit_byte",
    "inOrder": "is_in_order",
    "frontRead": "front_answer",
}


# a part of a name in snake case
def snake(part):
    if part in OTHER:
        return OTHER[part]
    if not CAMEL.match(part):
        return part
    part = re.sub(r"([a-z0-9])([A-Z])", r"\1_\2", part)
    return re.sub(r"([A-Z])([A-Z][a-z])", r"\1_\2", part).lower()


def turned(name):
    return "-".join(snake(p) for p in name.split("-"))


def without_comments(text, mark):
    return re.sub(re.escape(mark) + r"[^\n]*", "", text)


def files(*patterns):
    return sorted(f for p in patterns for f in glob.glob(p, recursive=True) if "/out/" not in f)


def table():
    tokens, kit = set(), set()
    antt = files("crates/*/specs/**/*.antt", "crates/*/proofs/**/*.antt")
    for f in antt + files("crates/*/src/**/*.rt"):
        with open(f) as it:
            text = without_comments(it.read(), "--" if f.endswith(".antt") else "//")
        for m in re.finditer(r"\buse ([\w.'-]+)\.\{([^}]*)\}", text):
            if not re.match(r"Rattle\.(?!std\b|core\b)", m[1]):
                kit.update(w.split(" as ")[0].strip() for w in m[2].split(","))
        if f.endswith(".antt"):
            tokens.update(WORD.findall(text))
    names = {t: turned(t) for t in tokens if turned(t) != t and t not in kit}
    return names, tokens


def main():
    names, tokens = table()
    if "--list" in sys.argv:
        for old in sorted(names):
            print(old, names[old])
        taken = collections.defaultdict(list)
        for old, new in names.items():
            taken[new].append(old)
        print("two names fall together:", {n: o for n, o in taken.items() if len(o) > 1})
        print("also the name of something else:", sorted(n for n in taken if n in tokens))
        return
    changed = 0
    for f in files("crates/*/specs/**/*.antt", "crates/*/proofs/**/*.antt", "crates/*/src/**/*.rt", "crates/*/must-fail/*.edit", "docs/*.md", "docs/*.txt", "docs/requests/*", "*.md"):
        with open(f) as it:
            text = it.read()
        # strings of src/ stay
        parts = re.split(r'("(?:[^"\\\n]|\\.)*")', text) if f.endswith(".rt") else [text]
        new = "".join(p if i % 2 else WORD.sub(lambda m: names.get(m[0], m[0]), p) for i, p in enumerate(parts))
        if new != text:
            with open(f, "w") as it:
                it.write(new)
            changed += 1
    print(f"{len(names)} names, {changed} files")


main()
