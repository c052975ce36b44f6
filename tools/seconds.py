#!/usr/bin/env python3
"""Judge: the gate's seconds, of each crate's checks and of its must-fail edits, on the clock and of the processor.

    python3 tools/seconds.py --run TIMES COMMAND...    runs `rt ci`, say, and writes the seconds of each crate's checks and of its edits to TIMES
    python3 tools/seconds.py TIMES [--write]           prints them, and what passes the budget; with --write the table of docs/BENCHMARKS.md too.
                                                       The gate leaves them as target/gate.json

A noisy machine changes the seconds on the clock and hardly those of the processor, so the budget is in the latter. The whole is what the system reckons for
the command and all that it started; what a crate takes is read from the process table every fifth of a second, so that each of its checks may lack its last
fifth. What `rt ci` has kept of an earlier run it does not check again: such a crate has no seconds, and the whole is less than one from nothing.
"""
import argparse, json, os, re, resource, subprocess, sys, time
from pathlib import Path

import usage

ROOT = Path(__file__).resolve().parent.parent
# 2,000 for document 01, 2,800 when all fourteen requests of 02 have landed
BUDGET = {"whole": 2000 + 800 * len(list(ROOT.glob("docs/requests/?.md"))) // 14, "check": 20, "crate": 60}
TICK = os.sysconf("SC_CLK_TCK")


def label(pid):
    """What a process of the checker works on: a crate's check or tests, or its edits, each tried in a folder of its own."""
    words = Path(f"/proc/{pid}/cmdline").read_text(errors="replace").split("\0")
    if os.path.basename(words[0]) != "rattle" or "--crate-name" not in words:
        return None
    is_edit = os.path.basename(os.readlink(f"/proc/{pid}/cwd")).startswith("rt-edit-")
    return words[words.index("--crate-name") + 1] + ("/edits" if is_edit else "")


def table():
    """Of each process its parent and its seconds of the processor, with those of its children that have ended."""
    found = {}
    for pid in filter(str.isdigit, os.listdir("/proc")):
        try:
            after = Path(f"/proc/{pid}/stat").read_text().rsplit(")", 1)[1].split()
            found[int(pid)] = int(after[1]), sum(map(int, after[11:15])) / TICK
        except (OSError, IndexError):
            pass
    return found


def sample(top, known, spent):
    """Notes for each checker below a process what it has taken so far, and since when; what a checker itself started counts as its own."""
    found = table()

    def above(pid):
        while (pid := found.get(pid, (0, 0))[0]) > 1:
            yield pid

    for ended in set(known) - set(found):
        del known[ended]
    now = time.time()
    for pid in found:
        # (a process that has just been started may not be the checker yet)
        if not known.get(pid) and top in above(pid):
            try:
                known[pid] = label(pid)
            except OSError:
                known[pid] = None
    for pid, name in known.items():
        if not name:
            continue
        if not any(known.get(other) for other in above(pid)):
            began = spent.get((name, pid), (now, 0, 0))[0]
            own = sum(found[p][1] for p in found if p == pid or pid in above(p))
            spent[name, pid] = began, now - began, max(own, spent.get((name, pid), (0, 0, 0))[2])


def run(times, command):
    known, spent, began = {}, {}, time.time()
    process = subprocess.Popen(command)
    while process.poll() is None:
        sample(process.pid, known, spent)
        time.sleep(0.2)
    used = resource.getrusage(resource.RUSAGE_CHILDREN)
    parts = {}
    for (name, _), (_, clock, cpu) in spent.items():
        before = parts.get(name, (0, 0))
        parts[name] = before[0] + clock, before[1] + cpu
    Path(times).write_text(json.dumps({"whole": used.ru_utime + used.ru_stime, "clock": time.time() - began, "parts": parts}))
    return process.returncode


def rows(spent):
    """crate, edits, then clock and processor of the checks and of the edits; a row for all at the end."""
    crates = re.findall(r"^(\w+)[^:#\n]*:", (ROOT / "crates.txt").read_text(encoding="utf-8"), re.M)
    parts = spent["parts"]
    found = [(c, len(list(ROOT.glob(f"crates/{c}/must-fail/*.edit"))), *parts.get(c, (0, 0)), *parts.get(c + "/edits", (0, 0))) for c in crates]
    return found + [("all", *(sum(column) for column in list(zip(*found))[1:]))]


def document(found, spent):
    lines = ["| crate | check: clock | processor | edits | clock | processor |", "|---|---|---|---|---|---|"]
    for crate, count, clock, cpu, edit_clock, edit_cpu in found:
        name = crate if crate == "all" else f"`{crate}`"
        lines.append(f"| {name} | {clock:.0f} s | {cpu:.0f} s | {count} | {edit_clock:.0f} s | {edit_cpu:.0f} s |")
    lines.append(f"\n`rt ci` in all: {spent['clock']:.0f} s on the clock, {spent['whole']:.0f} s of the processor.")
    return "\n".join(lines)


def over_budget(found, spent):
    for crate, _, _, cpu, _, edit_cpu in found[:-1]:
        if cpu > BUDGET["check"]:
            yield f"the check of {crate} takes {cpu:.0f} s of {BUDGET['check']}"
        if cpu + edit_cpu > BUDGET["crate"]:
            yield f"{crate} with its edits takes {cpu + edit_cpu:.0f} s of {BUDGET['crate']}"
    if spent["whole"] > BUDGET["whole"]:
        yield f"rt ci takes {spent['whole']:.0f} s of {BUDGET['whole']}"


def report(times, write):
    spent = json.loads(Path(times).read_text())
    found = rows(spent)
    print(f"{'seconds: clock, processor':<26}{'check':>12}{'edits':>14}")
    for crate, count, clock, cpu, edit_clock, edit_cpu in found:
        print(f"{crate:<26}{clock:>5.0f}{cpu:>7.1f}{edit_clock:>7.0f}{edit_cpu:>7.1f}  ({count} edits)")
    print(f"rt ci: {spent['clock']:.0f} s on the clock, {spent['whole']:.0f} s of the processor")
    for line in over_budget(found, spent):
        print("over budget: " + line)
    if write:
        path = ROOT / "docs/BENCHMARKS.md"
        text = path.read_text(encoding="utf-8")
        path.write_text(re.sub(r"(<!-- gate -->\n).*?(<!-- end -->)", lambda m: m[1] + document(found, spent) + "\n" + m[2], text, flags=re.S), encoding="utf-8")


def main():
    parser = usage.Parser(__doc__)
    parser.add_argument("--run", nargs=argparse.REMAINDER, metavar="WORD", help="TIMES and a command with its words: run it, and leave its seconds in TIMES")
    parser.add_argument("times", nargs="?", help="what --run has left")
    parser.add_argument("--write", action="store_true", help="write the table of docs/BENCHMARKS.md")
    args = parser.parse_args()
    if args.run is None and args.times is None or args.run is not None and len(args.run) < 2:
        parser.error("TIMES, or --run with TIMES and a command")
    if args.run:
        return run(args.run[0], args.run[1:])
    return report(args.times, args.write)


if __name__ == "__main__":
    sys.exit(main())
