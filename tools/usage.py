#!/usr/bin/env python3
"""Part of every tool: its command line. The first line that --help prints says what the tool is.

A generator makes files of the tree; a judge reckons by other means what a program should have written; a check holds files to one another; a part is
used by others. None writes to the tree without --write.
"""
import argparse
import operator
import pathlib

ROOT = pathlib.Path(__file__).resolve().parent.parent


class Parser(argparse.ArgumentParser):
    """Prints a tool's own text before its words."""

    def __init__(self, text):
        super().__init__()
        self.text = text.strip()

    def format_help(self):
        return f"{self.text}\n\n{super().format_help()}"


def help_only(text):
    """The command line of a part, which does nothing by itself."""
    Parser(text).parse_args()


def generator(text):
    """The command line of a generator."""
    parser = Parser(text)
    which = parser.add_mutually_exclusive_group()
    which.add_argument("--write", action="store_true", help="write the files")
    which.add_argument("--check", action="store_true", help="say whether they are as generated, as without any word")
    return parser.parse_args()


def generate(text, made, same=operator.eq):
    """Runs a generator: `made` has each path and what should stand there. The exit status is 1 where something else stands there and is not written over."""
    write, wrong = generator(text).write, 0
    for path, should in made().items():
        good = path.is_file() and same(path.read_text(encoding="utf-8"), should)
        if write and not good:
            path.write_text(should, encoding="utf-8")
        wrong += not (good or write)
        print(f"{path.relative_to(ROOT)}: " + ("as generated" if good else "written" if write else "NOT as generated; --write writes it"))
    return 1 if wrong else 0


if __name__ == "__main__":
    help_only(__doc__)
