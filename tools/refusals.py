#!/usr/bin/env python3
"""Check and generator: holds every place that repeats a refusal or a call to docs/refusals.txt and docs/calls.txt, and writes those that a script can write.

    python3 tools/refusals.py [--check]      each fault is a line `refusals: PATH: ..`, and the exit status is 1
    python3 tools/refusals.py --write        rewrites what is written, then checks; nothing else touches the tree
    python3 tools/refusals.py --self-test    changes the sources in memory, one word at a time, and demands that each change is found

Written (tools/refusal_parts.py): the C header's enum and names; the Rust crate's variants without values, with their numbers, texts and owned forms; the rows of names of
crates/log_text; the tables of refusals in docs/REFUSALS.md and docs/EXPORTS.md; the calls' orders there; the comparison's columns.
Held (tools/refusal_checks.py): `Refusal` with its comments, `number_of` and `values_of`; the Rust crate's other variants and texts; orders in comments
of the header and of the crates; what demand 2 takes as ours, and what the Rust's errors have; and that C and Rust declare calls, structs and answers
as Rattle does (tools/declarations.py).
"""
import sys

import declarations
import refusal_checks as checks
import refusal_parts as parts
import usage
from refusal_changes import self_test
from refusal_table import CALLS, REFUSALS, ROOT, Fault, Table

WRITTEN = sorted({path for path, _ in parts.WRITES})


def read_sources():
    """Every file that is held to the table, by its path."""
    paths = {REFUSALS, CALLS, checks.ENUM, checks.NUMBERS, checks.TYPES, *checks.OURS, *checks.RUST, *WRITTEN}
    paths |= {declarations.REPLY, declarations.SESSION_REPLY, declarations.RAW}
    sources = {path: (ROOT / path).read_text(encoding="utf-8") for path in sorted(paths)}
    for found in sorted([*ROOT.glob("crates/*/src/**/*.rt"), *ROOT.glob("crates/*/specs/**/*.antt")]):
        path, text = str(found.relative_to(ROOT)), found.read_text(encoding="utf-8")
        if checks.ORDERED in text or path.startswith(declarations.CRATE):
            sources[path] = text
    return sources


def rewritten(path, table, text):
    """A source as it should be, where the table alone says how."""
    for write in [write for written, write in parts.WRITES if written == path]:
        try:
            text = write(table, text)
        except Fault as fault:
            raise Fault(f"{path}: {fault}") from None
    return text


def faults_of(sources, changed=None):
    """What cannot be read; what would be written anew; what is held and differs. Where one source is changed, only what reads it is asked."""
    everything = changed in (None, REFUSALS, CALLS)
    try:
        table = Table(sources)
        for path in [path for path in WRITTEN if everything or path == changed]:
            differs = checks.differences(path, sources[path].splitlines(), rewritten(path, table, sources[path]).splitlines())
            yield from (f"{fault} (--write writes it)" for fault in differs)
    except Fault as fault:
        yield str(fault)
        return
    for check, paths in checks.CHECKS.items():
        if everything or changed.startswith(paths):
            yield from check(table, sources)


def write(sources):
    table = Table(sources)
    for path in WRITTEN:
        if (text := rewritten(path, table, sources[path])) != sources[path]:
            (ROOT / path).write_text(text, encoding="utf-8")
            print(f"refusals: {path}: written")


def main():
    parser = usage.Parser(__doc__)
    parser.add_argument("--check", action="store_true", help="check alone, as without any option")
    parser.add_argument("--write", action="store_true", help="rewrite what is written, then check")
    parser.add_argument("--self-test", action="store_true", help="check, then demand that changes of the sources are found")
    args = parser.parse_args()
    if args.write:
        write(read_sources())
    sources = read_sources()
    faults = list(faults_of(sources))
    told = "" if faults else f"{len(Table(sources).refusals)} refusals and {len(Table(sources).calls)} calls in {len(sources)} files"
    if args.self_test and not faults:
        faults, count = self_test(sources, faults_of)
        told += f"; {count} changes, each found"
    for line in faults or [told]:
        print("refusals: " + line)
    return 1 if faults else 0


if __name__ == "__main__":
    sys.exit(main())
