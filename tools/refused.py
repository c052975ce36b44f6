#!/usr/bin/env python3
"""Check: holds what the prover says of each must-fail edit to what the edit says: every wrong line is refused in its own function, at a fact.

An edit may change several functions, one wrong line (or pair of lines) in each: a round. A comment before each change names the function, or the
definition where the file is one of specs/, and says what is wrong:

    # read_key: no field has the number 0
    file: src/lib.rt
    old:     if number == 0 {
    new:     if number == 1 {

rt demands that the whole is refused, and prints the first error alone. So this script checks a copy of the crate with the edit (`rt check`), and demands
that each function named is refused by an error of its own: one in its own proof that is neither the echo of another refusal ("was not admitted") nor that
of a proof file which no longer fits the code's shape ("has no `..`", "has no field"); or, where rattle makes the proof, that a goal of it is left open. A
callee's contract stays as it was, so what a caller's proof is asked is not changed by a wrong line in a function that it calls: each function's refusal is
the one that it has alone. rattle tries no made goal of a function that calls one which is not proved: so the wrong lines that a check has not shown are
checked again, without those that it has, and in the end each alone. An edit of a definition, or of a constant, that stands alone in its check has to be
refused at a fact anywhere in the crate. Where definitions share a file, or one function is wrong in two ways, each may name the declaration that refuses it
alone, or the goal of a function's proof, no two the same one, and a fact has to fail there (tools/rounds.py tells which):

    # followed at proofs/ObserverLaws.drain-follows: a reader's uploader applies the deltas of every reader's drains
    # segment at proofs/segment/Answers.returns-else-a-b: ..

What was found of an edit is kept in the folder CUDDREWYN_KEPT (~/.cache/cuddrewyn where it is not set), by a sum of all that it rests on: the toolchain, the
crate, those below it, the edit, and VERSION. What every check wrote, and the facts that it failed at, are left in target/must-fail/CRATE/EDIT/.

    python3 tools/refused.py [ROOT] [--only CRATE..] [--jobs N]      the last line is 'N wrong programs in M edits, K not refused in their own function'
"""
import hashlib
import json
import os
import queue
import re
import shutil
import subprocess
import sys
import tempfile
import threading
from pathlib import Path

import usage

NAMED = re.compile(r"^# ((?:[^\s:]+::)*[^\s:]+)(?: at ((?:proofs|specs)/\S+)\.([^\s.]+))?: (.+)$")
DECLARED = re.compile(r"\s*(?:(?:abbrev|unfoldable|opaque|pub) +)*([^\s:(){}]+) :(?: |$)")
# Another one where what counts as a refusal changes: what was kept by the former counts no more.
VERSION = b"1"
# An echo of a refusal elsewhere; a file that names what is not there any more.
ECHO = ("was not admitted", "were not admitted", "so this cannot be checked", "was rejected, was not checked", "was rejected, were not checked")
UNFIT = re.compile(r"has no `|is not in scope|that can be named from here|has no field\b|expected type `goal\.[^`]*`,? but this has type `goal\.")
ERROR = re.compile(r"^(\S*?)((?:proofs|specs)/\S+?\.antt):(\d+):\d+: error: (.*?)(?=^(?:\S+:\d+:\d+: )?(?:error|note|help)\b|^checked |^fn |^enum |^struct |\Z)", re.M | re.S)
LABEL = re.compile(r"`([^`]+)`: ")
# A goal that rattle was to answer, and the function that it is of: the next line `fn ..`.
OPEN = re.compile(r"^note: src/\S+:\d+:\d+: .*\(`([^`]+)`\)")
OF_FUNCTION = re.compile(r"^(?:fn|enum|struct) (\S+?):? ")
# What rt takes for a text that cannot be read: such an edit is a BAD EDIT, and no contract was tried.
UNREAD = re.compile(r"is not in scope|has no field|is no name|operand is missing|expected the end|cannot continue")


def named(edit):
    """What an edit names: function or definition, the declaration that refuses it (file and name) where it says so, and what is wrong."""
    found = [NAMED.match(line) for line in edit.read_text(encoding="utf-8").splitlines()]
    return [(m[1], (m[2] + ".antt", m[3]) if m[2] else None, m[4]) for m in found if m]


def unnamed(edit):
    """Whether a change stands behind no name, or two behind the same: a function named twice needs its declarations, and one refuses one change."""
    free = False
    for line in edit.read_text(encoding="utf-8").splitlines():
        free = free or bool(NAMED.match(line))
        if line.startswith("old: ") and not free:
            return True
    pairs = wrongs(edit)
    # a function may have the name of its definition
    names, places = [(w.name, w.in_function()) for w in pairs if not w.at], [w.at for w in pairs if w.at]
    return not pairs or len(set(names)) < len(names) or len(set(places)) < len(places) or any((w.name, w.in_function()) in names for w in pairs if w.at)


class Wrong:
    """A wrong program of an edit: what it is wrong in, the declaration named, what is wrong, and its changes (file, old, new)."""

    def __init__(self, name, at, what):
        self.name, self.at, self.what, self.changes = name, at, what, []

    def in_function(self):
        """Whether it is a line of one function, and no definition or constant."""
        return all(f.startswith("src/") for f, _, _ in self.changes) and self.name.split("::")[-1][:1].islower()


def wrongs(edit):
    """The wrong programs of an edit, in order."""
    found, file, old = [], None, None
    for line in edit.read_text(encoding="utf-8").split("\n"):
        if m := NAMED.match(line):
            found.append(Wrong(m[1], (m[2] + ".antt", m[3]) if m[2] else None, m[4]))
        elif line.startswith("file: "):
            file = line.removeprefix("file: ").strip()
        elif line.startswith("old: "):
            old = line.removeprefix("old: ")
        elif line.startswith("new:") and found:
            found[-1].changes.append((file, old, line.removeprefix("new:").removeprefix(" ")))
    return found


def edited(crate, some):
    """The texts of the files that these wrong programs change, or None where an old text does not stand once."""
    texts = {}
    for file, old, new in (change for wrong in some for change in wrong.changes):
        text = texts.setdefault(file, (crate / file).read_text(encoding="utf-8"))
        if text.count(old) != 1:
            return None
        texts[file] = text.replace(old, new)
    return texts


def declaration(text, line):
    """The declaration that a line of a file belongs to: the last signature at or above it."""
    above = (DECLARED.match(x) for x in reversed(text.split("\n")[:line]))
    return next((m[1] for m in above if m), None)


def facts(log, read):
    """The errors of a log at a fact: the file, its declaration and goal, and the words. `read` gives the text of a file that was checked."""
    found = []
    for m in ERROR.finditer(log):
        if not any(e in m[4] for e in ECHO) and not UNFIT.search(m[4]):
            label = LABEL.match(m[4])
            found.append([m[2], declaration(read(m[2]), int(m[3])), label[1] if label else None, " ".join(m[4].split())[:300]])
    return found


def left_open(log, crate):
    """The goals that rattle made a proof for and left open, each as a fact of the function's own folder. Where the files there no longer fit, an answer may be
    lacking for that alone: then a goal tells something only where values are known at which it is false."""
    unfit = {m[2].rsplit("/", 1)[0] for m in ERROR.finditer(log) if UNFIT.search(m[4])}
    found, goals = [], []
    for line in log.splitlines():
        if m := OPEN.match(line):
            goals.append((m[1], line))
        elif m := OF_FUNCTION.match(line):
            path = m[1].removeprefix(crate + "::").replace("::", "/")
            goals = [(goal, words) for goal, words in goals if f"proofs/{path}" not in unfit or "allow values at which" in words]
            found += [[f"proofs/{path}/made", None, goal, words[:300]] for goal, words in goals]
            goals = []
    return found


def folder(function):
    """The start of the paths of a function's own proof."""
    *above, last = map(re.escape, function.split("::"))
    # functions that call one another have one proof, in a folder `+even+odd`; a cycle may have a name, `+name`
    return re.compile("proofs/" + "".join(a + "/" for a in above) + rf"(?:{last}|(?:\+\w+)*\+{last}(?:\+\w+)*)/")


def fails_at(found, at):
    """Whether a fact fails in the declaration named, or at the goal of that name in the function's own proof."""
    file, name = at
    own = re.compile(re.escape(file.rsplit("/", 1)[0]) + r"/[^/]+$") if file.count("/") > 1 else re.compile(re.escape(file) + "$")
    return any(own.match(path) and name in (declared, goal) for path, declared, goal, _ in found)


def shown(found, some):
    """Those of the wrong programs that are refused in their own place by a check of them together."""
    alone = len(some) == 1

    def is_shown(wrong):
        if alone and wrong.at and wrong.at[0].count("/") > 1:
            # in the proof of the function that is named, whichever goal it is
            own = wrong.at[0].rsplit("/", 1)[0] + "/"
            return any(path.startswith(own) for path, *_ in found)
        if wrong.at and not (alone and wrong.in_function()):
            return fails_at(found, wrong.at)
        if alone and not wrong.in_function():
            return bool(found)
        return any(folder(wrong.name).match(path) for path, *_ in found)

    return [wrong for wrong in some if is_shown(wrong)]


def refusal(found, wrong):
    """The fact that refuses a wrong program, for whoever asks: of its own proof or declaration, else the first."""
    own = [f for f in found if folder(wrong.name).match(f[0])] or [f for f in found if wrong.at and fails_at([f], wrong.at)] or found
    return f"{own[0][0]}: {own[0][2] or own[0][1]}" if own else ""


class Lane:
    """A copy of the repository that edits are tried in, one after the other; rt keeps there what one check proved for the next."""

    def __init__(self, root):
        self.top = Path(tempfile.mkdtemp(prefix="cuddrewyn-refused-"))
        for name in ("crates.txt", "HANDLES"):
            if (root / name).is_file():
                shutil.copy(root / name, self.top)
        shutil.copytree(root / "crates", self.top / "crates", ignore=lambda _, names: [n for n in names if n == "out"])
        # the top of a repository
        (self.top / ".git").mkdir()

    def text(self, crate, file):
        path = self.top / "crates" / crate / file
        return path.read_text(encoding="utf-8") if path.is_file() else ""

    def check(self, crate, texts):
        """What `rt check` writes of the crate with these texts in the place of its own."""
        folder, own = self.top / "crates" / crate, {path: self.text(crate, path) for path in texts}
        try:
            for path, text in texts.items():
                (folder / path).write_text(text, encoding="utf-8")
            for _ in range(2):
                done = subprocess.run(["rt", "check", "--jobs", "1"], cwd=folder, stdin=subprocess.DEVNULL, capture_output=True, text=True, errors="replace")
                # else it was killed, most likely for memory: once more
                if re.search(r"^logic=", done.stdout, re.M) or done.returncode == 1:
                    break
            return done.stdout + done.stderr
        finally:
            for path, text in own.items():
                (folder / path).write_text(text, encoding="utf-8")

    def forget(self, crate):
        shutil.rmtree(self.top / "crates" / crate / "out/incremental", ignore_errors=True)

    def close(self):
        shutil.rmtree(self.top, ignore_errors=True)


def unread(log, texts):
    """The first line that says that a text of src/ or specs/, or an edited one, cannot be read, as rt looks for it."""
    for line in log.splitlines():
        if re.search(r"\berror\[[\w-]+\]", line):
            return line
        at = re.match(r"(?:\./)?(\S+?):\d+:\d+: error: (`[^`]*`: )?(.*)", line)
        if at and (at[1] in texts or at[1].startswith(("src/", "specs/"))) and (not at[2] or UNREAD.search(re.sub(r"`[^`]*`", "", at[3]))):
            return line
    return None


def attempt(lane, crate, some, logs):
    """Checks wrong programs together: the facts that fail, or why nothing was checked."""
    texts = edited(lane.top / "crates" / crate, some)
    if texts is None:
        return None, "an old text does not stand once"
    log = lane.check(crate, texts)
    found = facts(log, lambda file: texts.get(file) or lane.text(crate, file)) + left_open(log, crate)
    number = len(list(logs.glob("*.log"))) + 1
    (logs / f"{number}.log").write_text(log, encoding="utf-8")
    (logs / f"{number}.json").write_text(json.dumps({"wrong": [w.name for w in some], "facts": found}, ensure_ascii=False, indent=1), encoding="utf-8")
    bad = unread(log, texts)
    if bad:
        return None, f"it cannot be read: {bad[:300]}"
    if not re.search(r"^logic=", log, re.M):
        return None, "the check came to no verdict: " + next((x for x in reversed(log.splitlines()) if x), "it wrote nothing")[:300]
    return found, None if found else "the crate is still proved, or only files that no longer fit are refused"


def tried(lane, crate, edit, logs):
    """Each wrong program of an edit with the fact that refuses it, or with None and why."""
    shutil.rmtree(logs, ignore_errors=True)
    logs.mkdir(parents=True)
    every = wrongs(edit)
    told, rest, alone, faults = {}, list(every), [], {}
    while rest:
        found, why = attempt(lane, crate, rest, logs)
        good = shown(found, rest) if found is not None else []
        told.update({w: refusal(found, w) for w in good})
        if not good:
            alone, faults = (rest, {}) if len(rest) > 1 else ([], {rest[0]: why})
            break
        rest = [w for w in rest if w not in good]
    for wrong in alone:
        found, faults[wrong] = attempt(lane, crate, [wrong], logs)
        if found is not None and shown(found, [wrong]):
            told[wrong] = refusal(found, wrong)
    return [(w.name, told.get(w), faults.get(w)) for w in every]


def sum_of(top, crate, below, edit):
    """A sum of all that the verdict on an edit rests on; of a crate below, whose functions are told by their contracts, without what proves these."""
    told = hashlib.sha256(VERSION)
    told.update(subprocess.run(["rt", "version"], capture_output=True).stdout + edit.read_bytes())
    for name in (crate, *sorted(below)):
        for path in sorted(p for part in ("src", "specs", "proofs") for p in (top / "crates" / name / part).rglob("*") if p.is_file()):
            if name == crate or path.name not in ("Invariants.antt", "Answers.antt", "Proof.antt"):
                told.update(f"\n{path.relative_to(top)}\n".encode() + path.read_bytes())
    return told.hexdigest()


def below(root):
    """The crates below each, as crates.txt has them."""
    lines = re.findall(r"^(\w+)[^:#\n]*:(.*)$", (root / "crates.txt").read_text(encoding="utf-8"), re.M)
    uses, found = {name: words.split() for name, words in lines}, {}
    for name, words in uses.items():
        queued, seen = list(words), set()
        while queued:
            d = queued.pop()
            if d in uses and d not in seen:
                seen.add(d)
                queued += uses[d]
        found[name] = seen
    return found


def judge(root, crates, jobs):
    """For each edit what was found of it, kept or now; and how many were tried now."""
    kept = Path(os.environ.get("CUDDREWYN_KEPT") or Path.home() / ".cache/cuddrewyn") / "refused"
    try:
        kept.mkdir(parents=True, exist_ok=True)
    except OSError as error:
        print(f"refused: nothing is kept: {error}", file=sys.stderr)
    # what is tried is the repository as it stands now, whatever changes meanwhile
    first = Lane(root)
    uses, results, waiting = below(first.top), {}, {}
    for edit in sorted(first.top.glob("crates/*/must-fail/*.edit")):
        crate, here = edit.parts[-3], root / edit.relative_to(first.top)
        if crates and crate not in crates:
            continue
        place = kept / sum_of(first.top, crate, uses.get(crate, ()), edit)
        if place.is_file():
            results[here] = [tuple(x) for x in json.loads(place.read_text(encoding="utf-8"))]
        else:
            waiting.setdefault(crate, []).append((here, edit, place))
    lanes = [first, *(Lane(first.top) for _ in range(min(jobs, len(waiting)) - 1))]
    order = queue.Queue()
    for crate in sorted(waiting, key=lambda c: -len(waiting[c])):
        order.put(crate)

    def work(lane):
        try:
            while True:
                crate = order.get_nowait()
                for here, edit, place in waiting[crate]:
                    results[here] = tried(lane, crate, lane.top / edit.relative_to(first.top), root / "target/must-fail" / crate / edit.stem)
                    print(f"refused: {crate}/{edit.name}: {sum(x[1] is not None for x in results[here])} of {len(results[here])}", file=sys.stderr, flush=True)
                    if kept.is_dir() and all(x[1] is not None for x in results[here]):
                        place.write_text(json.dumps(results[here], ensure_ascii=False), encoding="utf-8")
                lane.forget(crate)
        except queue.Empty:
            pass

    try:
        workers = [threading.Thread(target=work, args=(lane,)) for lane in lanes]
        for worker in workers:
            worker.start()
        for worker in workers:
            worker.join()
    finally:
        for lane in lanes:
            lane.close()
    return results, sum(map(len, waiting.values()))


def main(root, crates, jobs):
    results, new = judge(root, crates, jobs)
    wrong = bad = 0
    for edit, found in sorted(results.items()):
        where = edit.relative_to(root)
        if unnamed(edit):
            bad += 1
            print(f"{where}: a change without a name of its own before it")
        for (function, at, what), (_, refused, why) in zip(named(edit), found):
            wrong += 1
            if refused is None:
                bad += 1
                print(f"{where}: {function} is not refused at a fact of its own: {what}{f' ({why})' if why else ''}")
    lost = [e for e in root.glob("crates/*/must-fail/*.edit") if e not in results and (not crates or e.parts[-3] in crates)]
    for edit in lost:
        bad += 1
        print(f"{edit.relative_to(root)}: not tried")
    print(f"{new} of {len(results)} edits were checked in this run")
    print(f"{wrong} wrong programs in {len(results)} edits, {bad} not refused in their own function")
    return 1 if bad else 0


if __name__ == "__main__":
    parser = usage.Parser(__doc__)
    parser.add_argument("root", nargs="?", type=Path, default=Path("."), help="the repository; by default the folder that it is run in")
    parser.add_argument("--only", nargs="+", default=[], metavar="CRATE", help="the edits of these crates alone")
    parser.add_argument("--jobs", type=int, default=os.cpu_count() or 1, metavar="N", help="how many checks side by side")
    args = parser.parse_args()
    sys.exit(main(args.root.resolve(), args.only, args.jobs))
