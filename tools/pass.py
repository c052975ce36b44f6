#!/usr/bin/env python3
"""A planner's view of station logs: what was held when, which values two stations held at the same time, and messages made from text.

    tools/pass.py show LOG                    for each line a bar of the key space and the answer; a list where it changed
    tools/pass.py show LOG --json | --csv     the same as data
    tools/pass.py show LOG --html FILE        a page with a timeline; --svg FILE: the timeline alone
    tools/pass.py compare A.log B.log ..      the values that two of the stations held at the same time, with the lines of both logs
    tools/pass.py compare .. --json | --html FILE | --svg FILE
    tools/pass.py make LAYOUT                 lines of a log from a layout in text

LOG is run by the program station; '-' is standard input. `show --answers OUT LOG` reads in its place what ./run LOG --lists --state printed.
A log has no clock: a comment `# at SECONDS` gives the lines behind it a time. Logs with times are compared by them. Logs without are compared by epoch: two
lists of one epoch count as held at the same time, since the controller means them so; lists of different epochs do not. Only one topic is compared with itself.

A layout is lines of text: `open CONSUMER LINK TOPIC SUBSCRIPTION NAME KIND` as in a log, `epoch N`, then for each segment `ID START-END [START-END,..]` in
hexadecimal (the range, and the buckets where not all of it is the station's), and `update` or `response N`, which writes the message of what stands before
it. `begin N`, `drain N`, `invalidate` and comments stand as in a log; `parent TOPIC`, `consumer N`, `link N` change what open and begin have set.

The exit status: 0; 1 where show found a damaged line, or compare a value held by two stations; 2 where something cannot be told.
"""
import csv
import itertools
import json
import os
import sys
import textwrap
from pathlib import Path

import pass_compare
import usage
from pass_log import Fault, shown
from pass_make import made
from pass_output import log_of, recorded, refusal_of
from pass_page import page
from pass_picture import picture
from pass_spans import span_text
from pass_words import MANY, answer_text, bar

STATION = usage.ROOT / "crates" / "station" / "out" / "station"


def as_data(entry):
    """An entry for JSON and CSV."""
    baseline = entry.baseline()
    return {
        "line": entry.line,
        "time": entry.time,
        "call": entry.call,
        "answer": entry.answer,
        "refusal": refusal_of(entry.answer),
        "topic": entry.topic,
        "epoch": entry.epoch,
        "held": [span_text(span) for span in entry.spans()],
        "segments": None if entry.held is None else [str(segment) for segment in entry.held],
        "lost": entry.lost,
        "gained": [str(segment) for segment in entry.gained],
        "baseline": baseline and {"epoch": baseline[0], "segments": [str(segment) for segment in baseline[1]]},
    }


def cell(value):
    """A value of an entry in a cell of CSV."""
    if isinstance(value, list):
        return "; ".join(map(str, value))
    return json.dumps(value) if isinstance(value, dict) else value


def write_csv(entries):
    rows = csv.writer(sys.stdout, lineterminator="\n")
    rows.writerow(as_data(entries[0]) if entries else ["line"])
    rows.writerows([cell(value) for value in as_data(entry).values()] for entry in entries)


def list_rows(word, epoch, segments):
    """A list below its line."""
    text = f"{word} epoch {epoch}: " + ("; ".join(map(str, segments)) or "an empty list")
    return textwrap.indent(textwrap.fill(text, 120, subsequent_indent="  "), " " * 9)


def damaged_text(log):
    """How many lines were damaged, and the first of them."""
    damaged = log.damaged()
    return f"{len(damaged)} damaged" + (f": {', '.join(map(str, damaged[:MANY]))}" if damaged else "") + (" .." if len(damaged) > MANY else "")


def write_text(log):
    """For each entry a bar and the answer; the list where it changed, and the baseline of an accepted response."""
    width = max((len(str(entry.epoch)) for entry in log.entries if entry.epoch is not None), default=1)
    before = None
    print(f"{'line':>6}  {'call':<13} {'epoch':>{max(5, width)}}  {'0000':<16}{'4000':<16}{'8000':<16}{'c000':<12}ffff  answer")
    for entry in log.entries:
        epoch = "-" if entry.epoch is None else entry.epoch
        print(f"{entry.line:>6}  {entry.call:<13} {epoch:>{max(5, width)}}  {bar(entry.spans())}  {answer_text(entry)}")
        if baseline := entry.baseline():
            print(list_rows("baseline of", *baseline))
        if entry.held is not None and entry.held != before and baseline != (entry.epoch, entry.held):
            print(list_rows("held of", entry.epoch, entry.held))
        before = entry.held
    print(f"{len(log.entries)} lines, {damaged_text(log)}")


def write_files(args, logs, by, red, sentences=()):
    """The page and the picture, where they are asked for."""
    if args.html:
        Path(args.html).write_text(page(logs, by, red, sentences), encoding="utf-8")
    if args.svg:
        Path(args.svg).write_text(picture(logs, by, red) + "\n", encoding="utf-8")


def show(args):
    log = recorded(args.answers, args.log) if args.answers else log_of(args.log, args.station)
    write_files(args, [log], "time" if log.timed() else "order", {})
    if args.json:
        json.dump([as_data(entry) for entry in log.entries], sys.stdout, indent=1)
        print()
    elif args.csv:
        write_csv(log.entries)
    elif not (args.html or args.svg):
        write_text(log)
    return 1 if log.damaged() else 0


def found_in(logs, by):
    """What any two of the logs held at the same time: both logs, and the overlap."""
    for a, b in itertools.combinations(logs, 2):
        yield from ((a, b, overlap) for overlap in pass_compare.overlaps(a, b, by))


def red_of(found):
    """What the picture shows in red, by log."""
    red = {}
    for a, b, overlap in found:
        words = pass_compare.sentence((a.name, b.name), overlap)
        for log, run in zip((a, b), overlap.runs):
            red.setdefault(id(log), []).append((run.place, overlap.span, overlap.start, overlap.end, words))
    return red


def compare(args):
    if len(args.logs) < 2:
        raise Fault("two logs at least are compared")
    logs = [log_of(path, args.station) for path in args.logs]
    by = pass_compare.way_of(logs, args.by)
    found = list(found_in(logs, by))
    strangers = [(a.name, b.name) for a, b in itertools.combinations(logs, 2) if pass_compare.strangers(a, b)]
    sentences = [f"{a} and {b} have no topic in common: they are not compared" for a, b in strangers]
    sentences += [pass_compare.sentence((a.name, b.name), overlap) for a, b, overlap in found]
    sentences.append(f"{len(found)} span{'' if len(found) == 1 else 's'} held by two stations at the same time")
    if args.json:
        data = [pass_compare.as_data((a.name, b.name), overlap) for a, b, overlap in found]
        json.dump({"by": by, "not compared": strangers, "overlaps": data}, sys.stdout, indent=1)
        print()
    else:
        print(f"by {by}: {pass_compare.RULES[by]}", *sentences, sep="\n")
    write_files(args, logs, by, red_of(found), sentences)
    damaged = [f"{log.name}: {damaged_text(log)}" for log in logs if log.damaged()]
    if damaged and not found:
        raise Fault("; ".join([*damaged, "what was held may not be known"]))
    return 1 if found else 0


def make(args):
    data = sys.stdin.buffer.read() if args.layout == "-" else Path(args.layout).read_bytes()
    print(*made(data), sep="\n")
    return 0


def add_forms(parser, words, *more):
    """The forms in which a command can answer."""
    form = parser.add_mutually_exclusive_group()
    for name in ("--json", *more):
        form.add_argument(name, action="store_true", help="as data")
    parser.add_argument("--html", metavar="FILE", help=f"write {words} as a page of its own")
    parser.add_argument("--svg", metavar="FILE", help=f"write {words} as a picture")


def arguments(words):
    parser = usage.Parser(__doc__)
    commands = parser.add_subparsers(required=True, parser_class=usage.argparse.ArgumentParser)
    one = commands.add_parser("show", help="what a log held, line by line")
    one.add_argument("log")
    one.add_argument("--answers", metavar="OUT", help="what station printed of the log with --lists --state: it is not run")
    add_forms(one, "the timeline", "--csv")
    one.set_defaults(run=show)
    many = commands.add_parser("compare", help="which values two stations held at the same time")
    many.add_argument("logs", nargs="+")
    many.add_argument("--by", choices=("time", "epoch"), help="how lists are put beside one another (default: by time where all logs have times)")
    add_forms(many, "the timelines, with what two held in red,")
    many.set_defaults(run=compare)
    for command in (one, many):
        command.add_argument("--station", default=STATION, help="the program station (default: crates/station/out/station)")
    text = commands.add_parser("make", help="lines of a log from a layout in text")
    text.add_argument("layout")
    text.set_defaults(run=make)
    return parser.parse_args(words)


def main(words=None):
    args = arguments(words)
    try:
        status = args.run(args)
        sys.stdout.flush()
        return status
    except BrokenPipeError:
        # whoever reads has enough
        os.dup2(os.open(os.devnull, os.O_WRONLY), sys.stdout.fileno())
        return 2
    except OSError as error:
        print(f"pass: {shown(str(error.filename))}: {error.strerror}", file=sys.stderr)
        return 2
    except Fault as fault:
        print(f"pass: {fault}", file=sys.stderr)
        return 2


if __name__ == "__main__":
    sys.exit(main())
