#!/usr/bin/env python3
"""Check: holds docs/CLAIMS.md to the repository and to docs/sentences.txt, the list of the papers' sentences.

    python3 tools/claims.py                        names, ids, marks, contracts; that no file of specs/ uses one of proofs/; and that each public
                                                   function has two wrong programs of its own, or stands in docs/tried.txt
    python3 tools/claims.py --spec DIR             also: docs/sentences.txt is the list of the papers in DIR
    python3 tools/claims.py --spec DIR --write     rewrites docs/sentences.txt first

DIR holds mission.md, 01-scope.md and 02-change-requests.md; the environment may name it as CUDDREWYN_SPEC. Each fault is a line `claims: ...`, and the
exit code is 1.

Sentences. Each of the mission's three demands is a block. In 01 and 02 a paragraph is a block, and so is a list item; a heading is none. A heading or
block of 01 that starts with one of LEADS begins that section; others belong to the section before. A block of 02 that starts with a request's letter is
a section, as RequestK. In a block a sentence ends at a full stop with white space behind it, unless a lone capital letter stands before the stop
(`A. ..`). Its id is the section and its number there, from 1 on; a sentence with a number or letter of its own (`7 ..`, `A. ..`) keeps that. The list
has the id and the first 12 hex digits of the SHA-256 of the sentence, its white space made single blanks.
"""
import hashlib, os, re, sys
from collections import Counter
from pathlib import Path

import refused
import usage

# One function of a source, up to its body.
FUNCTION = re.compile(r'^[ \t]*(?P<pub>pub )?(?P<extern>extern "C" )?fn (?P<name>\w+)(?P<head>(?:(?!^[ \t]*\{$|\{$).)*?)(?:^[ \t]*\{$|\{$)', re.M | re.S)
# The crates of the programs' texts and of measurements: what they write is tested, not proved.
TEXTS = {"log_lines", "log_text", "log_lists", "log_calls", "log_questions", "test_keys", "test_vectors", "bench_speed", "station"}

ROOT = Path(__file__).resolve().parent.parent
LIST = ROOT / "docs/sentences.txt"
TRIED = ROOT / "docs/tried.txt"
LEADS = {
    "Sources:": "Sources", "**Fields": "Fields", "**Ranges": "Ranges", "**Names": "Names", "**Sheet": "Sheet", "**Store": "Store",
    "**Session": "Session", "- *Update": "Update", "- *Response": "Response", "- *Drain": "Drain", "- *Begin": "Begin", "**Delta": "Delta",
    "**Apply": "Apply", "**Demand 3": "Demand3", "**The uploader": "Uploader", "**The sender": "Sender", "## The rest": "Rest",
    "**Watch": "Watch", "## Refused for the input": "Calls", "1 ": "Refusal", "22 ": "Refusal", "Ours,": "Ours", "Update:": "Orders",
    "## Sessions": "Rows", "## Wrong turns": "Wrong", "## What each place": "Forms", "## What the Rust owns": "Rust",
}
# What stands below a claim.
CELLS = ("defined in: ", "promised by: ", "wrong programs tried: ")
faults = []
fault = faults.append


def blocks(text):
    """The headings, paragraphs and list items of a paper, each on one line."""
    text = re.sub(r"^(#.*)$", r"\n\1\n", text, flags=re.M)
    text = re.sub(r"^- ", "\n- ", text, flags=re.M)
    return [" ".join(block.split()) for block in re.split(r"\n\s*\n", text) if block.strip()]


def listing(folder):
    """The lines of docs/sentences.txt, made from the papers."""
    section, parts = None, [("Mission" + n, t) for n, t in re.findall(r"^> (\d)\. (.*)$", (folder / "mission.md").read_text(), re.M)]
    for block in blocks((folder / "01-scope.md").read_text()):
        section = next((key for lead, key in LEADS.items() if block.startswith(lead)), section)
        if section and not block.startswith("#"):
            parts.append((section, block.removeprefix("- ")))
    for block in blocks((folder / "02-change-requests.md").read_text()):
        if not block.startswith("#"):
            letter = re.match(r"([a-n])\) ", block)
            parts.append(("Request" + letter[1].upper() if letter else "Requests", block))
    count, lines = Counter(), []
    for section, text in parts:
        for sentence in map(str.strip, re.split(r"(?<=\.)(?<! [A-Z]\.) ", " " + " ".join(text.split()))):
            own = re.match(r"(\d+) |([A-Z])\. ", sentence)
            count[section] += 1
            number = (own[1] or own[2]) if own else count[section]
            lines.append(f"{section}.{number} {hashlib.sha256(sentence.encode()).hexdigest()[:12]}")
    return lines


def expand(cell, ids):
    """The ids of a cell `Delta.2` or `Delta.2-4`, none where it fits none; of a cell `Rest.1a` also the part, which is `a`."""
    if m := re.fullmatch(r"(\w+\.\d+)([a-z])", cell):
        return [i for i in ids if i == m[1]], m[2]
    first, _, last = cell.partition("-")
    last = first.split(".")[0] + "." + last if last else first
    return (ids[ids.index(first):ids.index(last) + 1] if first in ids and last in ids else []), ""


def claims(text):
    """Each claim of docs/CLAIMS.md: its id, its rule, and its three cells."""
    found = []
    for lead, cells in re.findall(r"^(\*\*[A-Z]\w*\.[\w-]+\*\*: (?:.+\n)+?)((?:- .+\n(?:  .+\n)*)+)", text, re.M):
        name, _, rule = " ".join(lead.split()).removeprefix("**").partition("**: ")
        parts = [" ".join(cell.split()) for cell in re.split(r"^- ", cells, flags=re.M)[1:]]
        found.append((name, rule, [part.partition(": ")[2] for part in parts if part.startswith(CELLS)], len(parts)))
    return found


def check_rows(text, ids):
    """Each sentence has one claim, or one for each of its parts; no claim has another id."""
    covered = {i: [] for i in ids}
    rows = claims(text)
    if len(rows) != len(re.findall(r"^\*\*[A-Z]\w*\.[\w-]+\*\*", text, re.M)):
        fault("docs/CLAIMS.md: a claim that this script cannot read")
    for name, rule, cells, count in rows:
        found, part = expand(name, ids)
        if not found or not rule or count != 3 or len(cells) != 3 or not all(cells):
            fault(f"{name}: " + ("not a rule and the three cells" if found else "no such sentence"))
        for i in found:
            covered[i].append(part)
    for i, parts in covered.items():
        if parts != [""] and (len(parts) < 2 or parts != list("abcdefghijklmnopqrstuvwxyz"[:len(parts)])):
            fault(f"{i}: " + ("neither one claim nor its parts in order" if parts else "no claim"))
    for cell in re.findall(r"\bsee\s+([A-Z]\w*\.[\w-]+)", text):
        if not expand(cell, ids)[0]:
            fault(f"see {cell}: no such sentence")
    return len(rows)


def declares(path, name):
    text = path.read_text()
    owner, _, last = name.rpartition("::")
    word = re.escape(last)
    if path.suffix == ".antt":
        return re.search(rf"^\s*((pub|abbrev|unfoldable) +)*((record|data) +{word}(?=\s|$)|{word}( [{{(].*)? *:)", text, re.M)
    if owner:
        bodies = re.findall(rf"^(?:pub )?(?:impl|enum) {re.escape(owner)}\b.*?^}}", text, re.M | re.S)
        return any(re.search(rf"\b(fn|const) {word}\b|^ +{word} *[({{,]", body, re.M) for body in bodies)
    if path.suffix in (".c", ".h"):
        return re.search(rf"\b{word}\b", text)
    return re.search(rf"^\s*(pub(\(\w+\))? )?(extern \"C\" )?(fn|struct|enum|const) {word}\b", text, re.M)


def check_names(text):
    """Each file:name is declared; each crate cited is in crates.txt or named as not proved yet, not both."""
    cited = sorted({c for c in re.findall(r"`([^`\n]+)`", text) if c.startswith(("crates/", "docs/", "tools/", "compare/", "bindings/", "bench/", "vectors/"))})
    for citation in cited:
        path, _, name = citation.split(" ")[0].partition(":")
        if not (ROOT / path).exists():
            fault(f"{citation}: no such file")
        elif path.endswith(".edit"):
            tried = [function for function, _, _ in refused.named(ROOT / path)]
            if name not in tried and (name or len(tried) > 1):
                fault(f"{citation}: " + ("no wrong program of it there" if name else "several wrong programs, so name the function"))
        elif path.endswith((".rt", ".antt")) != bool(name) and not path.endswith((".rs", ".c", ".h")):
            fault(f"{citation}: a name belongs behind .rt, .antt and .edit, and may stand behind .rs, .c and .h")
        elif name and not declares(ROOT / path, name):
            fault(f"{citation}: not declared there")
    proved = set(re.findall(r"^(\w+)[^:#\n]*:", (ROOT / "crates.txt").read_text(), re.M))
    waiting = set(re.findall(r"`(\w+)`", " ".join(re.findall(r"^Not proved yet: .*", text, re.M))))
    for crate in sorted(({c.split("/")[1] for c in cited if c.startswith("crates/")} - proved) ^ waiting):
        fault(f"{crate}: " + ("strike it from" if crate in waiting else "cited and not in crates.txt, so name it under") + " 'Not proved yet'")
    return len(cited)


def changed(edit, name):
    """Whether a definition is changed, for each change of an edit that names this function or definition; of an edit of one change, without a name, for that one."""
    file, at, files = "", "", {}
    for line in edit.read_text(encoding="utf-8").splitlines():
        if m := refused.NAMED.match(line):
            at, fresh = m[1], True
        elif line.startswith("file: "):
            file = line.removeprefix("file: ").strip()
        elif line.startswith("old: "):
            if at not in files or fresh:
                files.setdefault(at, []).append(file.startswith("specs/"))
            fresh = False
    return files.get(name) or next(iter(files.values()), [False])


def check_marks(text):
    """An edit that changes a definition is marked as one where it is cited, and no other is. A function may have its definition's name: then the mark tells which."""
    count = 0
    for citation, mark in re.findall(r"`(crates/[^`\n]+\.edit(?::[^`\n]+)?)`(\s+\(definition\))?", text):
        path, _, name = citation.partition(":")
        if (ROOT / path).exists():
            kinds = changed(ROOT / path, name)
            count += bool(mark)
            if bool(mark) not in kinds:
                fault(f"{citation}: " + ("changes a definition, so `(definition)` belongs behind it" if kinds[0] else "changes no definition, and is marked as if"))
    return count


def check_specs():
    """What a reader has to believe stands in specs/ alone: no file there uses one of proofs/. (The toolchain has words of its own, as `some`, below proofs/.)"""
    for path in sorted(ROOT.glob("crates/*/specs/**/*.antt")):
        for number, line in enumerate(path.read_text(encoding="utf-8").splitlines(), 1):
            used = re.match(r"\s*(?:pub |ghost )*(?:use|open|import)\b.*\bRattle\.(\w+)\.proofs\b", line)
            if used and (ROOT / "crates" / used[1]).is_dir():
                fault(f"{path.relative_to(ROOT)}:{number}: uses a file of proofs/")


def functions():
    """Each function of a crate: its crate, its path with its name, and the match."""
    for path in sorted(ROOT.glob("crates/*/src/**/*.rt")):
        text = path.read_text()
        found = list(FUNCTION.finditer(text))
        if len(found) != len(re.findall(r'^[ \t]*(?:pub )?(?:extern "C" )?fn ', text, re.M)):
            fault(f"{path.relative_to(ROOT)}: a function that this script cannot read")
        for m in found:
            yield path.relative_to(ROOT).parts[1], f"{path.relative_to(ROOT)}:{m['name']}", m


def check_contracts(text):
    """The functions with a `requires` are those in the list of internal helpers, and none is exported; a public one has an `ensures`."""
    listed, real = set(re.findall(r"^- `(crates/[^`]+)`: ", text, re.M)), set()
    for crate, citation, m in functions():
        if re.search(r"^\s+requires\b", m["head"], re.M):
            real.add(citation)
            if m["extern"]:
                fault(f"{citation}: an exported call with a requires")
        if (m["pub"] or m["extern"]) and crate not in TEXTS and not re.search(r"^\s+ensures\b", m["head"], re.M):
            fault(f"{citation}: a public function without an ensures")
    for citation in sorted(listed ^ real):
        fault(f"{citation}: " + ("not among the internal helpers" if citation in real else "an internal helper without a requires"))


def check_tried():
    """Each public function has two wrong programs of its own, or stands in docs/tried.txt with how many it has, and why."""
    public, tried = set(), Counter()
    for crate, _, m in functions():
        if (m["pub"] or m["extern"]) and crate not in TEXTS:
            public.add((crate, m["name"]))
    for edit in ROOT.glob("crates/*/must-fail/*.edit"):
        tried.update((edit.parts[-3], name.split("::")[-1]) for name, _, _ in refused.named(edit))
    listed = dict(re.findall(r"^(\w+::\w+) \| (\d) \| .", TRIED.read_text(encoding="utf-8"), re.M))
    fewer = {f"{crate}::{name}": str(tried[crate, name]) for crate, name in public if tried[crate, name] < 2}
    for name in sorted(fewer.keys() | listed.keys()):
        if fewer.get(name) != listed.get(name):
            fault(f"{name}: {fewer.get(name, 'two or more')} wrong programs of its own, docs/tried.txt says {listed.get(name, 'nothing')}")


def main():
    parser = usage.Parser(__doc__)
    parser.add_argument("--spec", default=os.environ.get("CUDDREWYN_SPEC"), help="folder of mission.md, 01-scope.md and 02-change-requests.md")
    parser.add_argument("--write", action="store_true", help="rewrite docs/sentences.txt from that folder")
    args = parser.parse_args()
    if args.write and not args.spec:
        parser.error("--write needs --spec")
    fresh = listing(Path(args.spec)) if args.spec else None
    if args.write:
        LIST.write_text("".join(line + "\n" for line in fresh))
    lines = LIST.read_text().splitlines()
    if args.spec and fresh != lines:
        for name in sorted({line.split()[0] for line in set(lines) ^ set(fresh)}) or ["the order"]:
            fault(f"{name}: docs/sentences.txt differs from the papers")
    text = (ROOT / "docs/CLAIMS.md").read_text()
    rows, names = check_rows(text, [line.split()[0] for line in lines]), check_names(text)
    marks = check_marks(text)
    check_specs()
    check_contracts(text)
    check_tried()
    for line in faults or [f"{rows} rows, {names} names, {len(lines)} sentences, {marks} wrong programs that are changed definitions"]:
        print("claims: " + line)
    return 1 if faults else 0


if __name__ == "__main__":
    sys.exit(main())
