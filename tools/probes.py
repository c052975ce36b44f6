#!/usr/bin/env python3
"""Check: no function of an archive holds a value in the register by which its stack is probed.

    python3 tools/probes.py ARCHIVE

A frame of more than some pages is touched page by page before it is used; the compiler counts in %r11 (`mov %rsp,%r11`). Where a function returns early
before it has a frame, an argument was once seen in that register across the probe, and was lost: in a trial program at -O3, not in this library. The proof is
of the program and not of the machine code, so the machine code is looked at: before the probe nothing of the function may name %r11. It needs objdump.
"""
import re
import shutil
import subprocess
import sys
from pathlib import Path

import usage

FUNCTION = re.compile(r"^[0-9a-f]+ <(.+)>:$")
PROBE = re.compile(r"\bmov\s+%rsp,%r11$")
HELD = re.compile(r"%r11[dwb]?\b")
# What it is to find, as it was seen.
SAMPLE = "0 <f>:\n 0:\tmov    %rsi,%r11\n 3:\tret\n 4:\tmov    %rsp,%r11\n 7:\tsub    $0x9000,%r11\n"


def faults(listing):
    """The functions that name the register before they probe with it, and how many probe."""
    name, named, probed, found = None, None, 0, []
    for line in listing.splitlines():
        if m := FUNCTION.match(line):
            name, named = m[1], None
        elif PROBE.search(line):
            probed += 1
            if named:
                found.append(f"{name}: {named}")
        elif HELD.search(line) and not named:
            named = line.split("\t")[-1].strip()
    return found, probed


def main():
    parser = usage.Parser(__doc__)
    parser.add_argument("archive", type=Path)
    archive = parser.parse_args().archive
    if not shutil.which("objdump"):
        print("probes: objdump is not on the PATH")
        return 3
    assert faults(SAMPLE) == (["f: mov    %rsi,%r11"], 1)
    found, probed = faults(subprocess.run(["objdump", "-d", "--no-show-raw-insn", archive], check=True, capture_output=True, text=True).stdout)
    for fault in found:
        print(f"probes: {fault}")
    print(f"probes: {probed} functions touch their stack page by page, {len(found)} hold something in the register meanwhile")
    return 1 if found else 0


if __name__ == "__main__":
    sys.exit(main())
