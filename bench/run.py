#!/usr/bin/env python3
"""Judge: measures the port beside the Rust and prints the tables of docs/BENCHMARKS.md; only with --write does it change a file.

Instructions are counted by callgrind: a run of some turns less a run of none, by their number. Times are the shortest of five runs of many turns less the shortest of
five of none. The heap is what valgrind finds. It needs rt, gcc and valgrind. The Rust's side is measured where CUDDREWYN_RUST names the folder of the Rust's sources
and cargo finds Debian's crates (librust-prost-dev, librust-prost-derive-dev, librust-bytes-dev, librust-thiserror-dev); else its columns say so.
"""
import argparse
import math
import os
import pathlib
import re
import shutil
import subprocess
import sys
import tempfile
import time

import growth
import messages

HERE = pathlib.Path(__file__).resolve().parent
ROOT = HERE.parent
DOCUMENT = ROOT / "docs" / "BENCHMARKS.md"
ABSENT = "not measured"
TURNS = 20
FULL = 1024
SLOT = 2048
RECORD = 104
MEASURED = ["Rust, instructions", "port, instructions", "port / Rust", "Rust, µs", "port, µs"]
MESSAGES = {
    "a": "4 segments without buckets",
    "b": "145 segments without buckets",
    "c": "one segment, 506 buckets that rise",
    "s": "the same, buckets falling",
}
# The bytes of their packed lists.
PACKED = {"a": 10 + 4 * 14, "b": 10 + 145 * 14, "c": 10 + 14 + 506 * 4}
TEXTS = {
    "ascii": "ASCII alone (row 1)",
    "two": "sequences of two bytes (row 2)",
    "three": "sequences of three bytes (row 4)",
    "four": "sequences of four bytes (row 7)",
    "german": "German: ASCII, now and then two bytes",
    "name": "a segment's name",
}
# What it is; the two messages that come in turn; whether the session is registered; how many pushes its queue holds; how many segments each update loses and gains.
UPDATES = [
    ("a: 4 segments without buckets", "a", "a2", 1, 0, "2 2"),
    ("a, a parent's path of 46 bytes", "a-long", "a-long2", 1, 0, "2 2"),
    ("n: a's first message again, no change", "a", "a", 1, 0, "0 0"),
    ("n, a parent's path of 46 bytes", "a-long", "a-long", 1, 0, "0 0"),
    ("b: 145 segments without buckets", "b", "b2", 1, 0, "72 72"),
    ("c: one segment, 506 buckets that rise", "c", "c2", 1, 0, "1 1"),
    ("d: a's first message, queued before the response", "a", "a", 0, 0, "0 0"),
    ("d, a parent's path of 46 bytes", "a-long", "a-long", 0, 0, "0 0"),
    ("f: b's segments in falling order", "f", "f2", 1, 0, "72 72"),
    ("g: b's segments shuffled", "g", "g2", 1, 0, "72 72"),
    ("s: c's buckets in falling order, no change", "s", "s", 1, 0, "0 0"),
    ("a, 1,024 pushes in the queue", "a", "a2", 1, FULL, "2 2"),
    ("n, 1,024 pushes in the queue", "a", "a", 1, FULL, "0 0"),
    ("b, 1,024 pushes in the queue", "b", "b2", 1, FULL, "72 72"),
    ("c, 1,024 pushes in the queue", "c", "c2", 1, FULL, "1 1"),
    ("s, 1,024 pushes in the queue", "s", "s", 1, FULL, "0 0"),
]
# Those that are measured through the binding besides.
BOUND = ("a", "b", "c")
# What it is; the call; its message, which comes each time; what the Rust and the port say: * is the number of calls, all refused.
HOSTILE = [
    ("65,536 falling buckets in one segment (15)", "update", "l", "0 0 0", "* 0 0"),
    ("the same, addressed to another link (23)", "stray", "l", "* 0 0", "* 0 0"),
    ("20,000 segments (15)", "update", "segments-20000", "0 0 0", "* 0 0"),
    ("the same in falling order (15)", "update", "segments-20000-falling", "0 0 0", "* 0 0"),
    ("20,000 segments, the last id has come before (14)", "update", "repeat-20000", "* 0 0", "* 0 0"),
]
# Messages of some 5 MB: what it is; the call and its messages; what the port says.
LONG = [
    ("an update of 115,000 segments, falling (15)", ("update", "long-falling", "long-falling", 1, 0), "* 0 0"),
    ("the same, rising, the last id has come before (14)", ("update", "long-repeat", "long-repeat", 1, 0), "* 0 0"),
    ("the same, addressed to another link (23)", ("stray", "long-repeat", "long-repeat", 1, 0), "* 0 0"),
    ("an update of eight segments with 65,536 falling buckets each (15)", ("update", "long-buckets", "long-buckets", 1, 0), "* 0 0"),
    *((f"a watch snapshot of 110,000 topics, {order}", ("watch", "w-110000-rising", f"w-110000-{order}", f"w-110000-{order}"), "0 110000 0")
      for order in ("rising", "shuffled", "falling")),
    *((f"a watch diff of 110,000 topics on 220,000, {order}", ("watch", "w-220000-rising", f"w-220000-{name}", f"w-220000-{name}-back"), "0 55000 55000")
      for order, name in (("rising", "half"), ("shuffled", "half-shuffled"), ("falling", "half-falling"))),
    *((f"the same, {order}, into an output without a byte to spare", ("tight", "w-220000-rising", f"w-220000-{name}", f"w-220000-{name}-back"), "0 55000 55000")
      for order, name in (("rising", "half"), ("shuffled", "half-shuffled"), ("falling", "half-falling"))),
]
# Pushes that wait for the response; turns that are counted.
RECONNECTS = [(0, TURNS), (16, TURNS), (FULL, 1)]
# What it is; the call; how many pushes wait; how many segments its delta loses and gains.
QUEUES = [
    ("a push, 16 wait", "push", 16, "0 0"),
    ("a push, 1,023 wait", "push", FULL - 1, "0 0"),
    ("the response, 16 wait", "response", 16, "0 0"),
    ("the response, 1,024 wait", "response", FULL, "0 0"),
    ("the first drain of 16", "first", 16, "0 4"),
    ("the last drain of 16", "last", 16, "2 2"),
    ("the first drain of 1,024", "first", FULL, "0 4"),
    ("the last drain of 1,024", "last", FULL, "2 2"),
]
# Topics of a set; turns that are counted.
SIZES = [(10, TURNS), (1000, TURNS), (20000, 2)]
# What it is; the two messages that come in turn; how many topics each adds and removes, of n: the last that comes is the second.
WATCHES = [
    ("snapshot, rising", "rising", "rising", lambda n: (n, 0)),
    ("snapshot, shuffled", "shuffled", "shuffled", lambda n: (n, 0)),
    ("snapshot, falling", "falling", "falling", lambda n: (n, 0)),
    ("diff of 10, rising", "few", "few-back", lambda n: (5, 5)),
    ("diff of n / 2, rising", "half", "half-back", lambda n: (n // 4, n // 4)),
    ("diff of n / 2, shuffled", "half-shuffled", "half-shuffled-back", lambda n: (n // 4, n // 4)),
    ("diff of n / 2, falling", "half-falling", "half-falling-back", lambda n: (n // 4, n // 4)),
    ("diff: n / 4 rising, and the highest the other way", "high", "high-back", lambda n: (1, n // 4)),
]
# Bytes of a key; segments of the list.
KEYS = [(0, 4), (8, 4), (32, 4), (1024, 4), (65535, 4), (8, 145)]
# Ids that a delta loses, and as many that it gains; the order of the log; turns that are counted.
LOGS = [
    (145, "rising", TURNS), (145, "falling", TURNS), (145, "shuffled", TURNS),
    (4000, "rising", TURNS), (4000, "falling", 1), (4000, "shuffled", 1), (4000, "halves", 1),
    (65535, "rising", 2), (65535, "shuffled", 1),
]
YES = "6"
# What it is; how many calls of the run are refused; the call and its messages.
STACKS = [
    ("an update, case a", 0, "update", "a", "a"),
    ("an update, case s", 0, "update", "s", "s"),
    ("an update whose list does not fit", 1, "update", "x", "x"),
    ("a response", 0, "response", "a", "a2", "response"),
    ("a drain", 0, "drain", "a", "a2", "response"),
    ("a watch update", 0, "watch", "w-1000-rising", "w-1000-half-shuffled", "w-1000-rising"),
]


def run(*words, **more):
    return subprocess.run([str(word) for word in words], check=True, capture_output=True, text=True, **more)


def say(text):
    print(f"bench: {text}", file=sys.stderr, flush=True)


def each(table, cases):
    """The cases one after the other; says which one it is."""
    for place, case in enumerate(cases, 1):
        say(f"{table}: case {place} of {len(cases)}")
        yield case


class Bench:
    """The programs of both sides, and the folder with their messages."""

    def __init__(self, folder, archives, times):
        self.folder = folder
        self.archives = archives or self.proved()
        self.times = times
        messages.write_all(folder)
        self.port = self.compiled("port", "export", "-pthread")
        self.growth = self.compiled("growth", "export")
        self.keys = self.compiled("keys", "export")
        self.logs = self.compiled("logs", "export", "-pthread")
        self.pieces = self.compiled("pieces", "bench_speed")
        self.rust = self.built()

    def proved(self):
        """The folder of both archives, which rt writes each into its crate's own."""
        for library in ("bench_speed", "export"):
            say(f"rt lib, in crates/{library}")
            run("rt", "lib", cwd=ROOT / "crates" / library)
            shutil.copy(ROOT / f"crates/{library}/out/lib{library}.a", self.folder)
        return self.folder

    def compiled(self, name, library, *more):
        run("gcc", "-O2", *more, HERE / f"{name}.c", self.archives / f"lib{library}.a", "-o", self.folder / name)
        return self.folder / name

    def built(self):
        """The program of the Rust's side, or None where the Rust's folder is not named."""
        if not os.environ.get("CUDDREWYN_RUST"):
            return None
        say("cargo build")
        more = {"cwd": HERE / "rust", "env": {**os.environ, "CUDDREWYN_LIB": str(self.archives.resolve())}}
        try:
            run("cargo", "build", "--release", "--offline", "--target-dir", self.folder / "rust", **more)
        except (OSError, subprocess.CalledProcessError) as error:
            sys.exit(f"bench: the Rust's side was not built: {getattr(error, 'stderr', error)}")
        return self.folder / "rust/release/rust-session"

    def file(self, name):
        return self.folder / f"{name}.bin"

    def sides(self, *words, parent=messages.PARENT):
        """The same words for the Rust's program and for the port's."""
        return [self.rust, parent, *words], [self.port, parent, *words]


def checked(done, told, turns):
    """What the turns print must be as told."""
    told = told.replace("*", str(turns))
    assert done.stdout.strip() == told, f"{done.args} printed {done.stdout}, not {told}"


def instructions(told, words, turns):
    """The instructions of one turn."""
    counts = []
    for times in (0, turns):
        done = run("valgrind", "--tool=callgrind", "--callgrind-out-file=/dev/null", *words, times)
        counts.append(int(re.search(r"Collected : (\d+)", done.stderr)[1]))
    checked(done, told, turns)
    return (counts[1] - counts[0]) // turns


def shortest(words, times):
    """The shortest of five runs, and the last of them."""
    taken = []
    for _ in range(5):
        start = time.perf_counter()
        done = run(*words, times)
        taken.append(time.perf_counter() - start)
    return min(taken), done


def microseconds(told, words, turns):
    """The time of one turn."""
    idle, _ = shortest(words, 0)
    busy, done = shortest(words, turns)
    checked(done, told, turns)
    return (busy - idle) / turns * 1e6


def side(bench, told, words, turns):
    """What one turn costs on one side: instructions and time, or nothing where there is no program of the Rust or the time is not asked for."""
    if words[0] is None:
        return None, None
    count = instructions(told, words, turns)
    many = min(max(400_000_000 // max(count, 1), 2), 20_000) // 2 * 2
    return count, microseconds(told, words, many) if bench.times else None


def shown(value, form):
    return ABSENT if value is None else format(value, form)


def measured(bench, told, sides, turns=TURNS):
    """The cells of a row: what one turn costs on both sides. They may have to say different things."""
    told = [told, told] if isinstance(told, str) else told
    (theirs, slow), (ours, quick) = (side(bench, says, words, turns) for says, words in zip(told, sides))
    share = None if theirs is None else ours / theirs
    return [shown(theirs, ","), shown(ours, ","), shown(share, ",.2f"), shown(slow, ",.2f"), shown(quick, ",.2f")]


def rows(heads, lines):
    head, *rest = ("| " + " | ".join(line) + " |" for line in [heads, *lines])
    return "\n".join([head, "|" + "---|" * len(heads), *rest])


def size_of(file):
    return f"{os.path.getsize(file):,}"


def piece_table(bench, theirs, ours, names, part=""):
    """A piece of an update by itself; the port's may be lent a part of the message alone."""
    lines = []
    for name in each(ours, names):
        file, own = bench.file(name), bench.file(name + part)
        cells = measured(bench, "0", [[bench.rust, messages.PARENT, theirs, file], [bench.pieces, ours, own]])
        lines.append([f"{name}: {MESSAGES[name]}", size_of(file), *cells])
    return rows(["case", "bytes", *MEASURED], lines)


def scan_table(bench):
    return piece_table(bench, "decode", "scan", "abcs")


def intake_table(bench):
    return piece_table(bench, "intake", "intake", "abcs")


def ordered_table(bench):
    return piece_table(bench, "both", "ordered", "abc", "-assignment")


def text_table(bench):
    lines = []
    for name in each("text", list(TEXTS)):
        file = bench.file(f"text-{name}")
        sides = [[bench.rust, messages.PARENT, "text", file], [bench.pieces, "text", file]]
        lines.append([TEXTS[name], size_of(file), *measured(bench, "0", sides)[:3]])
    return rows(["text", "bytes", *MEASURED[:3]], lines)


def bound_row(bench, what, told, sides, words):
    """An update through bindings/rust."""
    through = [bench.rust, messages.PARENT, "binding", *words]
    return [f"{what[0]}, through bindings/rust", told[2:].replace(" ", ", "), *measured(bench, told, [sides[0], through])]


def update_table(bench):
    lines = []
    for what, first, second, registered, queued, changed in each("update", UPDATES):
        parent = messages.LONG if "long" in first else messages.PARENT
        words = [bench.file(first), bench.file(second)]
        sides = bench.sides("update", *words, registered, queued, parent=parent)
        lines.append([what, changed.replace(" ", ", "), *measured(bench, f"0 {changed}", sides)])
        if bench.rust and first in BOUND and registered and not queued:
            lines.append(bound_row(bench, what, f"0 {changed}", sides, words))
    return rows(["case", "lost, gained", *MEASURED], lines)


def hostile_table(bench):
    lines = []
    for what, call, name, theirs, ours in each("hostile", HOSTILE):
        file = bench.file(name)
        cells = measured(bench, [theirs, ours], bench.sides(call, file, file, 1, 0), 2)
        lines.append([what, size_of(file), *cells])
    return rows(["update", "bytes", *MEASURED], lines)


def long_table(bench):
    """One call of the port over a message of some 5 MB."""
    lines = []
    for what, (call, *names), told in each("long", LONG):
        files = [bench.file(name) if isinstance(name, str) else name for name in names]
        words, message = bench.sides(call, *files)[1], files[1]
        taken = microseconds(told, words, 2) / 1000 if bench.times else None
        lines.append([what, size_of(message), f"{instructions(told, words, 2):,}", shown(taken, ",.1f")])
    return rows(["call", "bytes", "port, instructions", "port, ms"], lines)


def reconnect_table(bench):
    lines = []
    for queued, turns in each("reconnect", RECONNECTS):
        words = ["reconnect", *(bench.file(name) for name in ("a", "a2", "response")), queued]
        lines.append([f"{queued:,}", *measured(bench, "0 2 2" if queued else "0 0 0", bench.sides(*words), turns)])
    return rows(["pushes that wait", *MEASURED], lines)


def queue_table(bench):
    """One call of the port while pushes wait, or before they are drained."""
    lines = []
    for what, call, queued, changed in each("queue", QUEUES):
        words = ["queue", call, *(bench.file(name) for name in ("a", "a2", "response")), queued]
        lines.append([what, f"{instructions(f'0 {changed}', bench.sides(*words)[1], TURNS):,}"])
    return rows(["call", "port, instructions"], lines)


def watch_table(bench):
    lines = []
    for size, turns, what, first, second, counts in each("watch", [(*size, *case) for size in SIZES for case in WATCHES]):
        words = ["watch", *(bench.file(f"w-{size}-{name}") for name in ("rising", first, second))]
        told = "0 {} {}".format(*counts(size))
        lines.append([f"{size:,} topics: {what}", size_of(words[2]), *measured(bench, told, bench.sides(*words), turns)])
    return rows(["case", "bytes", *MEASURED], lines)


def key_table(bench):
    """The segment of a key beside a plain C hash. Both have to find the same one."""
    lines = []
    for length, segments in each("keys", KEYS):
        told = run(bench.keys, "c", length, segments, 1).stdout.strip()
        counts = [instructions(told, [bench.keys, which, length, segments], TURNS) for which in ("c", "port")]
        cells = [f"{count:,}" for count in (length, segments, *counts)]
        lines.append([*cells, f"{counts[1] / counts[0]:.2f}"])
    return rows(["bytes of the key", "segments", "C, instructions", "port, instructions", "port / C"], lines)


def log_table(bench):
    """An uploader's log of one delta, which passes."""
    lines = []
    for ids, order, turns in each("logs", LOGS):
        count = instructions(YES, [bench.logs, order, ids], turns)
        lines.append([f"{ids:,}", order, f"{count:,}", f"{count // (2 * ids):,}"])
    return rows(["ids lost, and as many gained", "entries", "port, instructions", "for an entry"], lines)


def exponents(counts):
    """By which power of its size the cost grows, from n to 2n and from 2n to 4n."""
    return ", ".join(f"{math.log2(more / less):.2f}" for less, more in zip(counts, counts[1:]))


def growth_row(bench, case):
    """A call over an input of the sizes n, 2n and 4n."""
    ours, largest, theirs = [instructions(case.told(size), case.ours(bench, size), case.turns) for size in case.sizes], case.sizes[-1], None
    if bench.rust and case.theirs:
        theirs = instructions((case.rust_told or case.told)(largest), case.theirs(bench, largest), case.turns)
    share = None if theirs is None else ours[-1] / theirs
    cells = [f"{count:,}" for count in (case.sizes[0], *ours)]
    other = ["", ""] if not case.theirs else [shown(theirs, ","), shown(share, ",.2f")]
    return [case.call, case.what, *cells, exponents(ours), *other]


def growth_table(bench):
    lines = [growth_row(bench, case) for case in each("growth", growth.CASES)]
    return rows(["call", "input", "n", "port, n", "2n", "4n", "exponents", "Rust, 4n", "port / Rust at 4n"], lines)


def heap(bench, *words):
    """The bytes that a run of the Rust leaves in use, and how often it allocates; nothing where it is not measured."""
    if bench.rust is None:
        return None
    told = run("valgrind", "--leak-check=no", bench.rust, messages.PARENT, *words).stderr
    found = re.search(r"in use at exit: ([\d,]+) bytes.*?total heap usage: ([\d,]+) allocs", told, re.S)
    return [int(number.replace(",", "")) for number in found.groups()]


def held(bench, empty, *words):
    """What a session of the Rust holds besides what an empty one does."""
    return f"{heap(bench, *words)[0] - empty[0]:,}" if empty else ABSENT


def memory_table(bench):
    """What a session holds, in bytes."""
    empty, lines = heap(bench, "open"), []
    for name in each("memory", "abc"):
        words = ["update", bench.file(name), bench.file(name)]
        lines.append([f"{name}'s list held", held(bench, empty, *words, 1, 0, 1), f"{3 * SLOT + RECORD:,}"])
        for queued in (16, FULL):
            lent = 3 * SLOT + queued * (2 + PACKED[name]) + RECORD
            lines.append([f"{queued:,} pushes of {name} that wait", held(bench, empty, *words, 0, queued - 1, 0), f"{lent:,}"])
    return rows(["a session with", "Rust, on the heap", "port, lent"], lines)


def allocations(bench, name):
    """How often one update of the Rust allocates."""
    if bench.rust is None:
        return ABSENT
    counts = [heap(bench, "update", bench.file(name), bench.file(f"{name}2"), 1, 0, times)[1] for times in (0, TURNS)]
    return f"{(counts[1] - counts[0]) / TURNS:,.0f}"


def stack_row(bench, what, refused, call, *names):
    files = [bench.file(name) for name in names]
    told = run(*bench.sides("stack", call, *files, *[1] * (5 - len(files)))[1]).stdout.split()
    assert told[0] == str(refused), f"{call} told {told}"
    return [f"deepest stack of {what}, bytes", "", f"{int(told[1]):,}"]


def size_table(bench):
    """The archive, the allocations of an update, and the deepest stack of each call."""
    archive = bench.archives / "libexport.a"
    text = sum(int(line.split()[0]) for line in run("size", archive).stdout.splitlines()[1:])
    lines = [["libexport.a, bytes", "", f"{archive.stat().st_size:,}"], ["machine code and constants in it, bytes", "", f"{text:,}"]]
    lines += [[f"allocations of an update, case {name}", allocations(bench, name), "0"] for name in "abc"]
    lines += [stack_row(bench, *case) for case in each("sizes", STACKS)]
    answer, deepest = run(bench.logs, "falling", 145, "stack").stdout.split()
    assert answer == YES, f"the log told {answer}"
    lines.append(["deepest stack of a log in falling order, bytes", "", f"{int(deepest):,}"])
    return rows(["what", "Rust", "port"], lines)


TABLES = {
    "update": update_table, "hostile": hostile_table, "long": long_table, "reconnect": reconnect_table, "queue": queue_table, "scan": scan_table, "intake": intake_table,
    "ordered": ordered_table, "text": text_table, "watch": watch_table, "keys": key_table, "logs": log_table, "growth": growth_table, "memory": memory_table,
    "sizes": size_table,
}


def arguments():
    parser = argparse.ArgumentParser(description=__doc__, formatter_class=argparse.RawDescriptionHelpFormatter)
    parser.add_argument("tables", nargs="*", metavar="TABLE", choices=[[], *TABLES], help=f"these alone, of {', '.join(TABLES)}")
    parser.add_argument("--write", nargs="?", type=pathlib.Path, const=DOCUMENT, metavar="FILE", help="replace the tables in docs/BENCHMARKS.md, or in FILE")
    parser.add_argument("--archives", type=pathlib.Path, metavar="FOLDER", help="measure libexport.a and libbench_speed.a of this folder, in place of those that rt makes")
    parser.add_argument("--counts", action="store_true", help="instructions alone: the times of a busy machine say nothing")
    return parser.parse_args()


def written(file, made):
    """Puts each table between its marks."""
    text = file.read_text(encoding="utf-8")
    for mark, table in made.items():
        text, times = re.subn(rf"(<!-- {mark} -->\n).*?(<!-- end -->)", lambda match: match[1] + table + "\n" + match[2], text, flags=re.S)
        if times != 1:
            sys.exit(f"bench: {file} has the mark {mark} {times} times")
    file.write_text(text, encoding="utf-8")


def main():
    asked, made = arguments(), {}
    with tempfile.TemporaryDirectory() as name:
        bench = Bench(pathlib.Path(name), asked.archives, not asked.counts)
        for mark in [mark for mark in TABLES if mark in asked.tables or not asked.tables]:
            made[mark] = TABLES[mark](bench)
            print(made[mark], end="\n\n", flush=True)
    if asked.write:
        written(asked.write, made)


if __name__ == "__main__":
    main()
