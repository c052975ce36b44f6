#!/usr/bin/env python3
"""Check: counts the places in crates/*/src whose form is older than today's Rattle, by the points of docs/DESIGN-PASS.md, and lists them.

Every count goes by the text, with comments and `ghost use` lines left out, so it finds candidates and decides nothing: a loop over an index may have to stay.

    python3 tools/places.py [ROOT] [--point N] [--list]      a line for each point, and with --list each place before it
"""
import argparse
import collections
import re
import sys
from pathlib import Path

import usage

FUNCTION = re.compile(r"^( *)(?:pub )?(?:extern \"C\" )?(?:unsafe )?fn (\w+)(.*?)^\1\}", re.M | re.S)
ENUM = re.compile(r"^(?:pub )?enum (\w+) \{\n(.*?)^\}", re.M | re.S)
STRUCT = re.compile(r"^(?:pub )?struct (\w+)(?:<[^>]*>)? \{\n(.*?)^\}", re.M | re.S)


class Source:
    """A file without its comments, its lines kept."""

    def __init__(self, root, path):
        self.name = str(path.relative_to(root / "crates"))
        self.text = re.sub(r"//[^\n]*|^ *ghost use [^\n]*", "", path.read_text(encoding="utf-8"), flags=re.M)
        self.functions = [(m[2], m[3], self.line(m.start())) for m in FUNCTION.finditer(self.text)]

    def line(self, at):
        return self.text.count("\n", 0, at) + 1

    def at(self, match):
        return f"{self.name}:{self.line(match.start())}"

    def body(self, rest):
        """What stands behind a function's contract."""
        return rest[rest.find("\n{"):] if "\n{" in rest else rest[rest.find("{"):]


def variants(body):
    return [(m[1], " ".join((m[2] or "").split())) for m in re.finditer(r"^    (\w+)((?:\([^)]*\)| \{[^}]*\})?),", body, re.M)]


def option_or_result(sources):
    """1: enums of the shape of Option or Result, and those that one empty or refusing variant makes so; a bool field beside values."""
    for s in sources:
        for m in ENUM.finditer(s.text):
            found = variants(m[2])
            empty, full = [v for v, p in found if not p], [v for v, p in found if p]
            refusing = [v for v, p in found if re.fullmatch(r"\((?:Refusal|KeyRangeError)\)", p)]
            if refusing or (len(empty) == 1 and full):
                yield s.at(m), f"enum {m[1]} {{ {', '.join(v + p for v, p in found)} }}"
        for m in STRUCT.finditer(s.text):
            fields = re.findall(r"(\w+): ([^,\n]+),", m[2])
            flags = [f for f, t in fields if t == "bool"]
            if flags and len(fields) > len(flags):
                yield s.at(m), f"struct {m[1]}: {', '.join(flags)} beside {len(fields) - len(flags)} more"
        for name, rest, line in s.functions:
            body = s.body(rest)
            for again in (r"else \{\s*return (?:None|Err\([^;]*\));\s*\}", r"\bErr\((\w+)\) => (?:return )?Err\(\1\)", r"\bNone => (?:return )?None\b"):
                for _ in re.finditer(again, body):
                    if "let Some" in body or "let Ok" in body or "match" in body:
                        yield f"{s.name}:{line}", f"fn {name}: hands a None or an Err on by hand"


def twins(sources):
    """2: functions of three statements or more that differ in names and numbers alone."""
    groups = collections.defaultdict(list)
    for s in sources:
        for name, rest, line in s.functions:
            body = s.body(rest)
            shape = re.sub(r"\b\d[\w]*\b", "0", re.sub(r"\b(?!(?:let|mut|if|else|while|for|in|match|return|loop|fn|true|false|as)\b)[A-Za-z_]\w*\b", "x", body))
            shape = " ".join(shape.split())
            if len(re.findall(r";|=>|\bif\b", body)) >= 2:
                groups[shape].append((f"{s.name}:{line}", f"fn {name}"))
    for group in groups.values():
        if len(group) > 1:
            for place, name in group:
                yield place, f"{name}, like {', '.join(n for p, n in group if p != place)}"


def loops(sources):
    """3: `while` and `loop`, but for `while let`: loops that move an index, a count or a place by hand."""
    for s in sources:
        for name, rest, line in s.functions:
            for m in re.finditer(r"\b(while\b(?! let\b)[^{]*|loop )\{", s.body(rest)):
                yield f"{s.name}:{line}", f"fn {name}: {' '.join(m[1].split())}"


def by_hand(sources):
    """4: equality, order, copying and conversion in functions of their own; a sum written out; a bool by two branches."""
    named = re.compile(r"(?:same|is_same|equal|compare|order|copy|put|to|from|min|max|wide|lesser|lower|shorter)(?:_\w+)?$")
    for s in sources:
        for name, rest, line in s.functions:
            if named.match(name):
                yield f"{s.name}:{line}", f"fn {name}"
            body = s.body(rest)
            for m in re.finditer(r"\b(\w+) = \1 [-+*/] ", body):
                yield f"{s.name}:{line}", f"fn {name}: {m[0].strip()}"
            for _ in re.finditer(r"\} else \{\s*(?:true|false)\s*\}|\{\s*(?:true|false)\s*\} else \{", body):
                yield f"{s.name}:{line}", f"fn {name}: a bool by two branches"


def travelling(sources):
    """5: a requires that three functions or more have; three parameters or more that three functions or more have together."""
    clauses, parameters = collections.defaultdict(list), collections.defaultdict(list)
    for s in sources:
        for name, rest, line in s.functions:
            head = rest[:len(rest) - len(s.body(rest))]
            for m in re.finditer(r"requires (?:\w+ )?\{(.*?)\}\s*$", head, re.M):
                clauses[" ".join(m[1].split())].append((f"{s.name}:{line}", f"fn {name}"))
            given = re.findall(r"(\w+): (&?(?:mut )?[\w\[\]:<>; ]+)", head.split("requires")[0].split("ensures")[0])
            if len(given) >= 4:
                for i in range(len(given) - 2):
                    parameters[tuple(given[i:i + 3])].append((f"{s.name}:{line}", f"fn {name}"))
    for what, group in [*clauses.items(), *parameters.items()]:
        if len(group) >= 3:
            words = what if isinstance(what, str) else ", ".join(f"{n}: {t}" for n, t in what)
            yield group[0][0], f"{len(group)} functions: {words}"


def buffers(sources):
    """6: a slice or an array and, beside it, how much of it counts; fixed arrays on the stack."""
    for s in sources:
        for name, rest, line in s.functions:
            head = rest[:len(rest) - len(s.body(rest))]
            for m in re.finditer(r"(\w+): &(?:mut )?\[\w+\],\s*(n|len|size|count|used|length): usize", head):
                yield f"{s.name}:{line}", f"fn {name}: {m[1]} and {m[2]}"
            for m in re.finditer(r"= \[[^;\]]*; [^\]]*\]", s.body(rest)):
                yield f"{s.name}:{line}", f"fn {name}: an array {m[0][2:]}"


def switches(sources):
    """7: a match on which step to run: arms that only call, three or more."""
    for s in sources:
        for name, rest, line in s.functions:
            body = s.body(rest)
            arms = re.findall(r"^ *(\w+::\w+)(?:\([^)]*\))? => (?:\{ )?[\w:]+\(", body, re.M)
            if len(arms) >= 3:
                yield f"{s.name}:{line}", f"fn {name}: {len(arms)} arms"


POINTS = {1: option_or_result, 2: twins, 3: loops, 4: by_hand, 5: travelling, 6: buffers, 7: switches}


def main(root, point, listed):
    sources = [Source(root, path) for path in sorted(root.glob("crates/*/src/**/*.rt"))]
    for number, find in POINTS.items():
        if point in (None, number):
            places = list(find(sources))
            if listed:
                for place, what in places:
                    print(f"  {place}: {what}")
            print(f"{number}: {len(places)} places; {find.__doc__.split(': ', 1)[1]}")
    return 0


if __name__ == "__main__":
    parser = usage.Parser(__doc__)
    parser.add_argument("root", nargs="?", type=Path, default=usage.ROOT, help="the repository")
    parser.add_argument("--point", type=int, choices=sorted(POINTS), help="this point alone")
    parser.add_argument("--list", action="store_true", help="each place, too")
    args = parser.parse_args()
    sys.exit(main(args.root.resolve(), args.point, args.list))
