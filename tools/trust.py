#!/usr/bin/env python3
"""Check and generator: what a reader has to believe for each demand: the files of definitions that its statement rests on, followed from `use` to `use`.

    python3 tools/trust.py             the table, and the list of the public files
    python3 tools/trust.py --list N    the files of row N of the table, with their lines
    python3 tools/trust.py --check     docs/TRUST.md has both, and each file of specs/ says in its first line what it is: exit status 1 where not
    python3 tools/trust.py --write     writes both there

A line counts where it has more than a comment. Types that a crate declares (`specs.declared`) are in its sources and are counted as that crate's src/.
The first line of a file of specs/ says `-- Public: ..` where a row of the table reaches it, and `-- Internal: ..` where none does. The last row starts
at every file that docs/CLAIMS.md cites as a definition.
"""
import re
import sys
from pathlib import Path

import usage

ROOT = Path(__file__).resolve().parent.parent
DOCUMENT = ROOT / "docs/TRUST.md"
START, END = "<!-- table: tools/trust.py -->", "<!-- end of table -->"
LIST_START, LIST_END = "<!-- list: tools/trust.py -->", "<!-- end of list -->"
MARKS = {True: "-- Public: ", False: "-- Internal: "}
STATEMENTS = {
    "1: each call equals its definition": ["crates/export/src/*.rt"],
    "2: what the Rust shows, the port shows": [
        "crates/rust_session/specs/Demand.antt", "crates/rust_export/specs/DemandTwo.antt", "crates/rust_watch/specs/Demand.antt", "crates/rust_names/specs/*.antt"],
    "3: station, sender and uploader hold the same": ["crates/session/specs/DemandThree.antt", "crates/rust_export/specs/DemandThree.antt"],
    "all that docs/CLAIMS.md cites as a definition": [],
}
DEFINITION = re.compile(r"`(crates/\w+/specs/[\w/]+\.antt)[:`]")
USE = re.compile(r"^(?:ghost )?use Rattle\.(\w+)\.(specs|proofs)\.([\w.]+?)(?:\.\{| as |\.?;|$)", re.M)


def target(crate, folder, name):
    """The file that a `use` names: the longest front of its path that is one; the crate's sources for a declared type."""
    parts = name.split(".")
    if parts[0] == "declared":
        return None
    for size in range(len(parts), 0, -1):
        path = ROOT / "crates" / crate / folder / ("/".join(parts[:size]) + ".antt")
        if path.is_file():
            return path
    return None


def reached(starts):
    """The files of definitions below the statement, and the crates whose declared types it names."""
    files, types, queue = set(), set(), [path for start in starts for path in sorted(ROOT.glob(start))]
    while queue:
        path = queue.pop()
        if path in files:
            continue
        files.add(path)
        for crate, folder, name in USE.findall(path.read_text(encoding="utf-8")):
            below = target(crate, folder, name)
            if below:
                queue.append(below)
            elif (ROOT / "crates" / crate).is_dir():
                types.add(crate)
    return files, types


def claimed():
    """The files that docs/CLAIMS.md cites as definitions."""
    cells = re.findall(r"^- defined in: .+\n(?:  .+\n)*", (ROOT / "docs/CLAIMS.md").read_text(encoding="utf-8"), re.M)
    return sorted({path for cell in cells for path in DEFINITION.findall(cell)})


def starts_of(demand):
    return STATEMENTS[demand] or claimed()


def public():
    """The files of specs/ that some row of the table reaches."""
    return {path for demand in STATEMENTS for path in reached(starts_of(demand))[0] if path.parent.name == "specs" and path.name != "Lib.antt"}


def wrong_marks():
    """The files of specs/ whose first line does not say what they are."""
    believed = public()
    for path in sorted(ROOT.glob("crates/*/specs/*.antt")):
        mark = MARKS[path in believed]
        if path.name != "Lib.antt" and not path.read_text(encoding="utf-8").startswith(mark):
            yield f"{path.relative_to(ROOT)}: its first line does not say '{mark.strip()}'"


def reading_list():
    """The public files, crate by crate in the order of crates.txt."""
    crates = re.findall(r"^(\w+)[^:#\n]*:", (ROOT / "crates.txt").read_text(encoding="utf-8"), re.M)
    files = {}
    for path in sorted(public()):
        files.setdefault(path.parts[-3], []).append(f"{path.stem} {lines(path)}")
    return "\n".join(f"- `{crate}`: {', '.join(files[crate])}" for crate in crates if crate in files)


def lines(path):
    """The lines of a file that are more than a comment."""
    return sum(1 for line in path.read_text(encoding="utf-8").splitlines() if line.strip() and not line.strip().startswith(("--", "//")))


def table():
    rows = ["| demand | files of definitions | lines | crates whose types it names |", "|---|---|---|---|"]
    for demand in STATEMENTS:
        files, types = reached(starts_of(demand))
        rows.append(f"| {demand} | {len(files)} | {sum(map(lines, files)):,} | {len(types)} |")
    return "\n".join(rows)


def main():
    parser = usage.Parser(__doc__)
    parser.add_argument("--list", type=int, choices=(1, 2, 3, 4), help="the files of this row")
    parser.add_argument("--check", action="store_true", help="hold docs/TRUST.md and the first lines to it")
    parser.add_argument("--write", action="store_true", help="write docs/TRUST.md's table and list")
    args = parser.parse_args()
    if args.list:
        files, types = reached(starts_of(list(STATEMENTS)[args.list - 1]))
        for path in sorted(files):
            print(f"{lines(path):5} {path.relative_to(ROOT)}")
        print("types declared in: " + " ".join(sorted(types)))
        return 0
    blocks = [(START, END, table()), (LIST_START, LIST_END, reading_list())]
    text = DOCUMENT.read_text(encoding="utf-8") if DOCUMENT.is_file() else ""
    if args.write:
        for start, end, body in blocks:
            text = re.sub(f"{start}.*?{end}", lambda _: f"{start}\n\n{body}\n\n{end}", text, flags=re.S)
        DOCUMENT.write_text(text, encoding="utf-8")
        return 0
    if args.check:
        wrong = [f"docs/TRUST.md has not this; write it by --write\n{body}" for start, end, body in blocks if f"{start}\n\n{body}\n\n{end}" not in text]
        wrong += wrong_marks()
        for line in wrong:
            print("trust: " + line)
        return 1 if wrong else 0
    print(table() + "\n\n" + reading_list())
    return 0


if __name__ == "__main__":
    sys.exit(main())
