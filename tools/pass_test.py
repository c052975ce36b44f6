#!/usr/bin/env python3
"""Check: tools/pass.py and ./run. The layouts of vectors/planner are made into logs, run by the program station, shown and compared.

What is printed is held to vectors/planner/*.out, the picture to docs/pass.svg; pages are parsed, and held to their logs; tools/pass_hostile.py has logs that
are none. `--write` writes the .out files and the picture.
"""
import argparse
import csv
import io
import json
import os
import re
import subprocess
import sys
import tempfile
import xml.dom.minidom
from pathlib import Path

import pass_hostile

ROOT = Path(__file__).resolve().parent.parent
PLANNER, PICTURE = ROOT / "vectors" / "planner", ROOT / "docs" / "pass.svg"
EXAMPLE = ROOT / "crates" / "station"
LAYOUTS = ("north", "south", "west", "east", "other")
# the file that has what is printed; the words; the exit status
OUTPUTS = (
    ("north.out", "show north.log", 0),
    ("north_json.out", "show north.log --json", 0),
    ("north_csv.out", "show north.log --csv", 0),
    ("south.out", "show south.log", 0),
    ("other.out", "show other.log", 0),
    ("both.out", "compare north.log south.log --html both.html --svg both.svg", 1),
    ("both_json.out", "compare north.log south.log --json", 1),
    ("late.out", "compare north.log west.log --html late.html", 1),
    ("late_by_epoch.out", "compare north.log west.log --by epoch", 0),
    ("itself.out", "compare west.log west.log", 1),
    ("all.out", "compare north.log south.log west.log east.log --by epoch --html all.html", 1),
    ("handed_over.out", "compare north.log east.log --html handed_over.html", 0),
    ("other_topic.out", "compare north.log other.log", 0),
)
# what stands on the page of each comparison: how many spans
RED = {"both": 1, "late": 1, "handed_over": 0, "all": 2}


def run(words, folder, status, given=None):
    """The output of pass.py, which has to end with that status."""
    done = subprocess.run([sys.executable, ROOT / "tools" / "pass.py", *words], cwd=folder, input=given, capture_output=True, text=True)
    if done.returncode != status:
        sys.exit(f"pass_test: {' '.join(map(str, words))}: exit {done.returncode}, should be {status}: {done.stderr}")
    return done.stdout


def outputs(folder):
    """What the tool prints, by the name of the file that has it."""
    for name in LAYOUTS:
        log = run(["make", PLANNER / f"{name}.layout"], folder, 0)
        (folder / f"{name}.log").write_text(log, encoding="utf-8")
    found = {PLANNER / name: run(words.split(), folder, status) for name, words, status in OUTPUTS}
    return found | {PICTURE: (folder / "both.svg").read_text(encoding="utf-8")}


def of_class(page, tag, kind):
    return [node for node in page.getElementsByTagName(tag) if kind in node.getAttribute("class").split()]


def titles(nodes):
    """The hover text of each."""
    return [child.firstChild.data for node in nodes for child in node.getElementsByTagName("title")]


def page_faults(path, log_lines=None):
    """What is wrong with a page: it is well-formed, fetches nothing, and has each line of the logs, each with its numbers in hover."""
    text = path.read_text(encoding="utf-8")
    page = xml.dom.minidom.parseString(text.removeprefix("<!DOCTYPE html>"))
    bare = text.replace('xmlns="http://www.w3.org/2000/svg"', "")
    faults = [f"{path.name} has {found}" for found in re.findall(r"<script|<link|<img|<iframe|@import|url\(|\b(?:src|href)=|https?://", bare)]
    rows = [row for row in page.getElementsByTagName("tr") if row.getElementsByTagName("td")]
    numbers = [row.getElementsByTagName("td")[0].firstChild.data for row in rows]
    if log_lines is not None and numbers != log_lines:
        faults.append(f"{path.name} has the lines {numbers}, should have {log_lines}")
    called = [row for row in rows if row.getAttribute("class") != "comment"]
    hovers = [row.getAttribute("title") for row in called]
    marks = titles(of_class(page, "rect", "mark"))
    faults += [f"{path.name}: no hover in {len(called)} rows and marks"] if marks != hovers or not all("held: " in hover for hover in hovers) else []
    return faults


def numbered(*paths):
    """The numbers of the lines that are not empty, log by log."""
    return [str(n) for path in paths for n, line in enumerate(path.read_bytes().split(b"\n"), 1) if line]


def red_faults(folder):
    """Each span that two stations held is red in both bands, and in a row of each."""
    faults = []
    for name, spans in RED.items():
        page = xml.dom.minidom.parse(str(folder / f"{name}.html"))
        red = of_class(page, "path", "both")
        told = [text for text in titles(red) if "held by both" in text]
        if len(red) != 4 * spans or len(told) != 2 * spans:
            faults.append(f"{name}.html has {len(red)} red boxes, {len(told)} of them told, for {spans} spans")
    return faults


def example_faults(folder):
    """The example log as a page, from the answers that stand beside it: every line, every refusal by its name and with its numbers."""
    words = ["show", EXAMPLE / "stdin", "--answers", EXAMPLE / "stdout"]
    shown = run([*words, "--html", "example.html"], folder, 1)
    faults = page_faults(folder / "example.html", numbered(EXAMPLE / "stdin")) + ([f"printed {shown}"] if shown else [])
    page = (folder / "example.html").read_text(encoding="utf-8")
    wanted = ("StaleEpoch: got 6, prev 7", "InvalidRange: segment id 2, kind reversed, start 49151, end 32768", "baseline of epoch 3, segments 2")
    faults += [f"example.html does not have '{text}'" for text in wanted if text not in page]
    data = json.loads(run([*words, "--json"], folder, 1))
    rows = list(csv.reader(io.StringIO(run([*words, "--csv"], folder, 1))))
    if len(data) != len(rows) - 1 or [str(entry["line"]) for entry in data] != [row[0] for row in rows[1:]]:
        faults.append("JSON and CSV have other lines")
    epochs = {entry["line"]: entry["epoch"] for entry in data}
    return faults + ([] if epochs[54] == epochs[74] - 1 == 7 else ["behind a question or a damaged line another list is held than before it"])


def answered(words, **more):
    """Exit status and output of ./run."""
    done = subprocess.run([ROOT / "run", *words], capture_output=True, **more)
    return done.returncode, done.stdout


def run_faults(folder):
    """./run takes a file, standard input, CR LF and a byte-order mark; its status is 0 only where no line was damaged."""
    plain = (folder / "north.log").read_bytes()
    (folder / "marked.log").write_bytes(b"\xef\xbb\xbf" + plain.replace(b"\n", b"\r\n"))
    (folder / "damaged.log").write_bytes(plain + b"udpate 1 0x00")
    station = subprocess.run([ROOT / "crates/station/out/station", "--lists"], input=plain, capture_output=True, check=True).stdout
    cases = {
        "a log": (answered([folder / "north.log", "--lists"]), (0, station)),
        "standard input": (answered(["-", "--lists"], input=plain), (0, station)),
        "CR LF and a byte-order mark": (answered([folder / "marked.log", "--lists"]), (0, station)),
        "the same in another locale": (answered([folder / "marked.log", "--lists"], env={**os.environ, "LC_ALL": "C.UTF-8"}), (0, station)),
        "a log of the folder at hand": (answered(["north.log", "--lists"], cwd=folder), (0, station)),
        "the help page": (answered(["--help"]), (0, subprocess.run([ROOT / "crates/station/out/station", "--help"], capture_output=True, check=True).stdout)),
        "the recorded answers": (answered(["--recorded"]), (0, (EXAMPLE / "stdout").read_bytes())),
        "a damaged log": (answered([folder / "damaged.log"])[0], 1),
        "no log": (answered([folder / "none.log"])[0] != 0, True),
    }
    shown = run(["show", "north.log"], folder, 0)
    cases["shown, CR LF and a byte-order mark"] = (run(["show", "marked.log"], folder, 0), shown)
    cases["shown, standard input"] = (run(["show", "-"], folder, 0, plain.decode("utf-8")), shown)
    return [f"./run, {name}: {str(got)[:200]}, should be {str(should)[:200]}" for name, (got, should) in cases.items() if got != should]


# a toolchain that proves nothing: what it prints, and a program that answers
TOOLCHAIN = """#!/bin/sh
printf 'crate parts: modules loaded=0 checked=3\\nlogic=proved functions=2\\ncrate station: modules loaded=0 checked=9\\naxioms os: os::c::read\\nlogic=proved functions=1\\n' >&2
mkdir -p out && printf '#!/bin/sh\\necho answered\\n' >out/station && chmod +x out/station
"""


def count_faults(folder):
    """The first ./run counts the crates that are proved, of those that the program is made of, and then runs the example."""
    tree = folder / "tree"
    (tree / "crates/station").mkdir(parents=True)
    (tree / "crates/station/stdin").write_text("")
    (tree / "crates.txt").write_text("# crates\nparts:\nother: parts\nstation: parts\n")
    for name, text in (("run", (ROOT / "run").read_text(encoding="utf-8")), ("rt", TOOLCHAIN)):
        (tree / name).write_text(text, encoding="utf-8")
        (tree / name).chmod(0o755)
    done = subprocess.run([tree / "run"], capture_output=True, text=True, env={**os.environ, "PATH": f"{tree}:{os.environ['PATH']}"})
    told = done.stderr.splitlines()[1:]
    if (done.returncode, done.stdout, told) != (0, "answered\n", ["run: 1 of 2 crates, parts", "run: 2 of 2 crates, station"]):
        return [f"the first ./run: exit {done.returncode}, {done.stdout!r}, {told}"]
    return []


def main():
    parser = argparse.ArgumentParser(description=__doc__.split("\n")[0])
    parser.add_argument("--write", action="store_true", help="write the .out files and the picture")
    args = parser.parse_args()
    with tempfile.TemporaryDirectory() as made:
        folder = Path(made)
        found = outputs(folder)
        wrong = page_faults(folder / "both.html", numbered(folder / "north.log", folder / "south.log"))
        wrong += red_faults(folder) + example_faults(folder) + run_faults(folder) + count_faults(folder) + pass_hostile.faults(folder, page_faults)
    for path, text in found.items():
        if args.write:
            path.write_text(text, encoding="utf-8")
        elif not path.is_file() or path.read_text(encoding="utf-8") != text:
            wrong.append(f"{path.relative_to(ROOT)} is not what is printed; --write writes it")
    wrong += [f"{path.relative_to(ROOT)} is nobody's" for path in sorted(set(PLANNER.glob("*.out")) - set(found))]
    print(*(f"pass_test: {fault}" for fault in wrong), f"pass: {len(found)} outputs, {len(wrong)} wrong", sep="\n")
    return 1 if wrong else 0


if __name__ == "__main__":
    sys.exit(main())
