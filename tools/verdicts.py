#!/usr/bin/env python3
"""Check: holds the last line of the archive's check to what docs/TRUST.md says of it.

    python3 tools/verdicts.py LOG      LOG: what `rt lib` wrote in crates/export

The line has `logic=proved`, and neither `axioms=` nor `foreign=`: the archive calls nothing whose contract nobody proved; nor `hides=`, `bugs=` or a bound
under which a function may end the process or wait (`may-abort=`, `may-wait=`). No word says that the logic is another one (`pinned=no`) or that something
was taken from a cache (`cache=`). `incremental=trusted` stands in each line of `rt lib`, which begins with what a check in that folder kept: that the same
files are proved from nothing is what `rt ci` says before it in the gate.
"""
import re
import sys
from pathlib import Path

import usage

REFUSED = ("axioms=", "foreign=", "hides=", "bugs=", "may-abort=", "may-wait=", "may-serve=", "pinned=no", "cache=", "logic=not-proved")


def verdicts(text):
    """The last line of each check of the crate, in order."""
    return re.findall(r"^logic=.*$", text, re.M)


def faults(text):
    lines = verdicts(text)
    if not lines:
        return ["there is no line `logic=..`"]
    return [f"`{word}` stands in: {line}" for line in lines for word in REFUSED if word in line]


def main():
    parser = usage.Parser(__doc__)
    parser.add_argument("log", type=Path, help="what `rt lib` wrote in crates/export")
    text = parser.parse_args().log.read_text(encoding="utf-8", errors="replace")
    found = faults(text)
    for line in found or [verdicts(text)[-1]]:
        print("verdict: " + line)
    return 1 if found else 0


if __name__ == "__main__":
    sys.exit(main())
