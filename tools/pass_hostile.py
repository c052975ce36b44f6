#!/usr/bin/env python3
"""Part of tools/pass_test.py: logs, outputs and layouts that are none, or strange: tools/pass.py says what is wrong, and never ends with a traceback."""
import contextlib
import importlib
import io
import json
import os
import random
import subprocess
import xml.dom.minidom

import usage

# its name is a word of the language
TOOL = importlib.import_module("pass")
OPEN = b"open 7 1 topic://a/b/c sub name stream\n"
# a response and an update of the topic above: segment 0, 0000-7fff
RESPONSE = b"response 1 0x080122020802\n"
UPDATE = b"update 1 0x08071229080312250800100018ffff01221b7365676d656e743a2f2f612f622f632f303030302d376666662d30\n"


def logs():
    """Logs by name, each with the statuses that showing it may end with."""
    rng = random.Random(1)
    return {
        "empty": (b"", 0),
        "garbage": (rng.randbytes(20000), 1),
        "garbage behind a session": (OPEN + RESPONSE + UPDATE + rng.randbytes(20000).replace(b"\n# at ", b"") + b"\n", 1),
        "a line of a megabyte": (OPEN + b"update 1 0x" + b"0" * (1 << 20) + b"\n" + RESPONSE, 1),
        "a comment of a megabyte": (OPEN + b"#" + b"\x1b<&>\"'" * 200000 + b"\n", 1),
        "a long comment": (OPEN + b"#" + b"\x1b<&>\"'" * 20000 + b"\n", 0),
        "a long name": (b"open 7 1 topic://a/b/" + b"c" * 1900 + b" sub name stream\n" + RESPONSE, 0),
        "zero bytes": (bytes(5000), 1),
        "line ends of other kinds": (OPEN + b"# a\x0bb\x0cc\x1cd\x85e\xe2\x80\xa8f\rg\n" + RESPONSE + UPDATE, 0),
        "a message that is none": (OPEN + b"response 1 0x0\nupdate 1\nupdate 1 0x\nresponse 1 \xff\xfe\n", 1),
        "no end of line": (OPEN + RESPONSE + UPDATE.strip(), 0),
        "a time that is none": (b"# at 12:30\n" + OPEN, 2),
        "a time too long": (b"# at " + b"9" * 5000 + b"\n" + OPEN, 2),
        "a time that goes back": (b"# at 5\n" + OPEN + b"# at 4\n" + RESPONSE, 2),
    }


# outputs of station that are none, and layouts that are none
ANSWERS = (b"", b"\xff\x00\n", b"1 open accepted\n", b"1 open accepted\n0 calls: 0 accepted, 0 refused; 0 damaged lines\n",
           b"9 open accepted\n  held none\n1 calls: 1 accepted, 0 refused; 0 damaged lines\n",
           b"0 calls: 0 accepted, 0 refused; 0 damaged lines\nmore\n")
LAYOUTS = (b"\xff\n", b"response\n", b"response x\n", b"response -1\n", b"epoch 18446744073709551616\n", b"0 0-1 2\n", b"0 0000-10000\n", b"parent x\nupdate\n",
           b"what\n", b"epoch " + b"9" * 9000 + b"\n", b"open a b c d e f\n")


def ended(folder, *words):
    """The status with which pass.py ends, what it prints, and what is wrong with that."""
    out, told = io.StringIO(), io.StringIO()
    before = os.getcwd()
    os.chdir(folder)
    with contextlib.redirect_stdout(out), contextlib.redirect_stderr(told):
        try:
            status, fault = TOOL.main([str(word) for word in words]), ""
        except (Exception, SystemExit) as error:
            status, fault = -1, f"ends with {error!r:.200}"
        finally:
            os.chdir(before)
    if status == 2 and not told.getvalue().startswith("pass: "):
        fault = "without a word"
    return status, out.getvalue(), fault


def log_faults(folder, name, data, status, page_faults):
    """A log shown in all forms: its status, its page, and the lines as station counts them."""
    (folder / "hostile.log").write_bytes(data)
    faults = []
    for form in ([], ["--json", "--html", "hostile.html", "--svg", "hostile.svg"]):
        got, printed, fault = ended(folder, "show", "hostile.log", *form)
        if fault or got != status:
            faults.append(f"a log, {name}, {form[:1]}: status {got}, should be {status} {fault}")
            continue
        if form and status != 2 and lines_told(data) != [entry["line"] for entry in json.loads(printed)]:
            faults.append(f"a log, {name}: other lines than station's")
    if status == 2 or faults:
        return faults
    xml.dom.minidom.parse(str(folder / "hostile.svg"))
    return faults + page_faults(folder / "hostile.html")


def lines_told(data):
    """The numbers of the lines that station answers."""
    plain = b"".join(line.removesuffix(b"\r") + b"\n" for line in data.removesuffix(b"\n").split(b"\n")) if data else b""
    told = subprocess.run([usage.ROOT / "crates/station/out/station"], input=plain, capture_output=True, check=True).stdout
    return [int(line.split(b" ")[0]) for line in told.split(b"\n")[:-2]]


def refused(folder, *words):
    """The words have to end with status 2 and a message."""
    status, _, fault = ended(folder, *words)
    return [] if status == 2 and not fault else [f"{' '.join(words)}: status {status}, should be 2 {fault}"]


def faults(folder, page_faults):
    found = [fault for name, (data, status) in logs().items() for fault in log_faults(folder, name, data, status, page_faults)]
    for kind, cases, words in (("answers", ANSWERS, ["show", "north.log", "--answers"]), ("layout", LAYOUTS, ["make"])):
        for k, data in enumerate(cases):
            (folder / f"{kind}{k}").write_bytes(data)
            found += refused(folder, *words, f"{kind}{k}")
    (folder / "untimed.log").write_bytes(OPEN + RESPONSE + UPDATE)
    (folder / "damaged.log").write_bytes(OPEN + RESPONSE + b"udpate\n")
    for words in ("show none.log", "show .", "make none", "compare north.log", "compare north.log none.log", "compare north.log untimed.log",
                  "compare untimed.log untimed.log --by time", "compare damaged.log damaged.log", "show north.log --station none",
                  "show north.log --html none/a.html"):
        found += refused(folder, *words.split())
    return found


if __name__ == "__main__":
    usage.help_only(__doc__)
