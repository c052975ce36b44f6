#!/usr/bin/env python3
"""Generator: joins wrong programs to rounds, or sets them apart; without --write it says how many edits there would be.

    python3 tools/rounds.py --write [CRATE...]              rewrites crates/CRATE/must-fail, and what docs/CLAIMS.md cites of it
    python3 tools/rounds.py --apart --write [CRATE...]      sets each wrong program into an edit of its own

An edit costs a whole check of its crate, whatever it changes, and the checker judges each function by itself, its callees by their contracts: so a round
with one wrong line in each of several functions costs one check, and each gets the refusal that it has alone (tools/refused.py holds the log to that).
A definition, a constant, or a second wrong line of a function reaches further. It joins a round where a declaration tells it from the others: a fact that
fails there by it alone, and by none of the others when they are alone. Where a changed definition answers a wrong line, so that the round is not refused for
both, --kinds keeps definitions and lines in rounds of their own. That is read off target/must-fail, so `tools/refused.py --only CRATE` comes first,
with the programs apart or in the rounds that they have; what joined before stands by its declaration and is not joined anew.
"""
import json
import re
from pathlib import Path

import refused
import usage

ROOT = Path(__file__).resolve().parent.parent


class Program:
    """A wrong program: what it is wrong in, the declaration named, what is wrong, the changes (file, old, new), its edit."""

    def __init__(self, name, at, what, edit):
        self.name, self.at, self.what, self.changes, self.edit = name, at, what, [], edit
        self.fails, self.reach = set(), set()

    def in_function(self):
        """Whether it is a line of one function, and no definition or constant."""
        return all(f.startswith("src/") for f, _, _ in self.changes) and self.name.split("::")[-1][:1].islower()

    def joins(self, some, kinds):
        """Whether it may stand beside others: beside none that joined before, and with `kinds` lines beside lines, definitions beside definitions."""
        return all(not p.at and (not kinds or p.in_function() == self.in_function()) for p in some)

    def text(self, at):
        place = f" at {at[0].removesuffix('.antt')}.{at[1]}" if at else ""
        lines, last = [f"# {self.name}{place}: {self.what}"], None
        for f, old, new in self.changes:
            lines += ([f"file: {f}"] if f != last else []) + [f"old: {old}", f"new: {new}".rstrip()]
            last = f
        return "\n".join(lines) + "\n"


def programs_of(edit):
    """The wrong programs of an edit."""
    out, f, old = [], None, None
    for line in edit.read_text(encoding="utf-8").split("\n"):
        if m := refused.NAMED.match(line):
            out.append(Program(m[1], (m[2] + ".antt", m[3]) if m[2] else None, m[4], edit))
        elif line.startswith("#"):
            out[-1].what += " " + line[1:].strip()
        elif line.startswith("file: "):
            f = line[6:]
        elif line.startswith("old: "):
            old = line[5:]
        elif line.startswith("new:"):
            out[-1].changes.append((f, old, line[5:]))
    return out


def failing(logs, name):
    """The declarations, or else the goals, with their files, at which a fact fails in the checks that this wrong program was in."""
    checks = [json.loads(path.read_text(encoding="utf-8")) for path in sorted(logs.glob("*.json"))]
    return {(file, declared or goal) for check in checks if name in check["wrong"] for file, declared, goal, _ in check["facts"]}


def measured(crate):
    """A crate's wrong programs with what fails by each: in a function of a round, what fails in its own proof."""
    out = []
    for edit in sorted((crate / "must-fail").glob("*.edit")):
        programs = programs_of(edit)
        for p in programs:
            fails = failing(ROOT / "target/must-fail" / crate.name / edit.stem, p.name)
            p.fails = {x for x in fails if refused.folder(p.name).match(x[0])} if p.in_function() else fails
            p.reach = fails if len(programs) == 1 else p.fails
        out += programs
    return sorted(out, key=lambda p: (not p.in_function(), len(p.fails) if not p.in_function() else 0))


def unique(crate, some):
    """Every old text still stands once when its turn comes."""
    texts = {}
    for f, old, new in (c for p in some for c in p.changes):
        text = texts.setdefault(f, (crate / f).read_text(encoding="utf-8"))
        if text.count(old) != 1:
            return False
        texts[f] = text.replace(old, new)
    return True


def told_apart(some):
    """For each program the declaration that tells it from the others, or none where its function does; None where nothing does."""
    out = {}
    for p in some:
        others = set().union(*[q.reach for q in some if q is not p])
        shared = any(q.name == p.name for q in some if q is not p) or any(refused.folder(p.name).match(x[0]) for x in others)
        own = sorted((x for x in p.fails - others if x[1]), key=lambda x: (x[0].startswith("specs"), len(x[0]) + len(x[1]), x))
        if len(some) == 1 or p.in_function() and not shared:
            out[p] = None
        elif own:
            out[p] = own[0]
        else:
            return None
    return out


def joined(crate, kinds):
    """A crate's wrong programs in rounds."""
    programs = measured(crate)
    rounds = {}
    for p in programs:
        if p.at:
            rounds.setdefault(p.edit, [q for q in programs if q.edit == p.edit])
    kept = [q for r in rounds.values() for q in r]
    rounds = list(rounds.values())
    for p in programs:
        if p in kept:
            continue
        into = next((r for r in rounds if p.joins(r, kinds) and unique(crate, r + [p]) and told_apart(r + [p])), None)
        if into is None:
            rounds.append(into := [])
        into.append(p)
    return rounds


def rewrite(crate, rounds):
    """Rewrites a crate's edits; gives what is cited as what."""
    moved, files, free = {}, {}, 1
    for r in rounds:
        label = r[0].edit.stem
        if len(r) > 1 or r[0].in_function():
            label, free = f"round-{free}", free + 1
        at = {p: p.at for p in r} if any(p.at for p in r) else told_apart(r)
        target = crate / "must-fail" / f"{label}.edit"
        files[target] = "".join(p.text(at[p]) for p in r)
        for p in r:
            old = p.edit.relative_to(ROOT)
            name = f":{p.name}" if len(r) > 1 or label.startswith("round-") else ""
            for cited in (f"`{old}:{p.name}`", f"`{old}`"):
                moved.setdefault(cited, f"`{target.relative_to(ROOT)}{name}`")
    for edit in (crate / "must-fail").glob("*.edit"):
        edit.unlink()
    for path, text in files.items():
        path.write_text(text, encoding="utf-8")
    return moved


def set_apart(crate):
    """Each wrong program in an edit of its own, numbered; gives what is cited as what."""
    programs = [p for edit in sorted((crate / "must-fail").glob("*.edit")) for p in programs_of(edit)]
    for edit in (crate / "must-fail").glob("*.edit"):
        edit.unlink()
    moved = {}
    for i, p in enumerate(programs):
        target = crate / "must-fail" / f"apart-{i + 1}.edit"
        target.write_text(p.text(None), encoding="utf-8")
        for cited in (f"`{p.edit.relative_to(ROOT)}:{p.name}`", f"`{p.edit.relative_to(ROOT)}`"):
            moved.setdefault(cited, f"`{target.relative_to(ROOT)}`")
    return moved


def main():
    parser = usage.Parser(__doc__)
    parser.add_argument("crates", nargs="*", metavar="CRATE", help="these alone")
    parser.add_argument("--apart", action="store_true", help="each wrong program in an edit of its own")
    parser.add_argument("--kinds", action="store_true", help="definitions and lines in rounds of their own")
    parser.add_argument("--write", action="store_true", help="rewrite the edits, and docs/CLAIMS.md")
    args, moved, claims = parser.parse_args(), {}, ROOT / "docs/CLAIMS.md"
    for crate in sorted((ROOT / "crates").iterdir()):
        if not (crate / "must-fail").is_dir() or args.crates and crate.name not in args.crates:
            continue
        if args.apart:
            print(f"{crate.name}: {sum(len(programs_of(e)) for e in (crate / 'must-fail').glob('*.edit'))} apart")
            moved |= set_apart(crate) if args.write else {}
            continue
        rounds = joined(crate, args.kinds)
        print(f"{crate.name}: {sum(map(len, rounds))} wrong programs in {len(rounds)} edits")
        moved |= rewrite(crate, rounds) if args.write else {}
    if moved:
        claims.write_text(re.sub(r"`[^`\n]+`", lambda m: moved.get(m[0], m[0]), claims.read_text(encoding="utf-8")), encoding="utf-8")


if __name__ == "__main__":
    main()
