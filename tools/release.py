#!/usr/bin/env python3
"""Makes a release of a proved tree: the library, its header, the Rust crate and the program, for those who have no prover.

    python3 tools/release.py                     writes dist/cuddrewyn-VERSION-x86_64-linux.tar.gz
    python3 tools/release.py --install PREFIX    writes the same tree to PREFIX, a folder of its own, such as /opt/cuddrewyn
    python3 tools/release.py --check-version     holds all places that repeat the version to the file VERSION; makes nothing

The gate leaves a proved tree: crates/export/out/libexport.a, crates/station/out/station, target/archive.log. Where one is missing, or the log's verdict is not
what docs/TRUST.md says of it, nothing is made. The same commit, compiler and proof give the same bytes. docs/RELEASE.md has what is in it.
"""
import argparse
import gzip
import os
import shutil
import sys
import tarfile
import tempfile
from pathlib import Path

import release_tree as tree
import release_version as version


def say(text):
    print("release: " + text, flush=True)


def step(text):
    """What is being done now, on standard error: packing takes some seconds."""
    print("release: " + text, file=sys.stderr, flush=True)


def time_of(root):
    """The time of every file in it: of the last commit, or as SOURCE_DATE_EPOCH says."""
    when = os.environ.get("SOURCE_DATE_EPOCH") or tree.said(["git", "log", "-1", "--format=%ct"], root)
    if not when.isdigit():
        raise tree.Refused("this is no clone of the repository: SOURCE_DATE_EPOCH has to say the time of its last commit")
    return int(when)


def plain(info, when):
    """An entry of the archive without what differs from machine to machine."""
    info.uid = info.gid = 0
    info.uname = info.gname = ""
    info.mtime = when
    info.mode = 0o777 if info.issym() else 0o755 if info.isdir() or info.mode & 0o100 else 0o644
    return info


def pack(folder, name, when, target):
    """The tree as a tar, its names in order."""
    target.parent.mkdir(parents=True, exist_ok=True)
    with open(target, "wb") as file, gzip.GzipFile("", "wb", 9, file, mtime=0) as packed:
        with tarfile.open(fileobj=packed, mode="w", format=tarfile.USTAR_FORMAT) as tar:
            for path in [folder, *sorted(folder.rglob("*"), key=str)]:
                tar.add(path, str(name / path.relative_to(folder)), recursive=False, filter=lambda info: plain(info, when))


def install(folder, prefix):
    """The tree below a prefix that is empty, or that an earlier release was installed to."""
    if prefix.is_dir() and any(prefix.iterdir()) and not (prefix / "PROOF.txt").is_file():
        raise tree.Refused(f"{prefix} has other files: a release is installed to a folder of its own")
    for path in [folder, *sorted(folder.rglob("*"), key=str)]:
        target = prefix / path.relative_to(folder)
        if path.is_dir():
            target.mkdir(parents=True, exist_ok=True)
        else:
            # a file in use keeps its bytes: it is replaced, not written over
            target.unlink(missing_ok=True)
            shutil.copy2(path, target, follow_symlinks=False)


def release(root, prefix, dist):
    """Makes the tree, then packs or installs it; what stands in the way is an exception."""
    numbers = version.numbers(version.read_sources())
    faults = version.faults(version.read_sources()) or tree.faults(root, numbers["abi"])
    if faults:
        raise tree.Refused("; ".join(faults))
    name, when = version.release_name(numbers), time_of(root)
    with tempfile.TemporaryDirectory() as made:
        folder = Path(made) / name
        folder.mkdir()
        step("makes the tree")
        tree.make(root, folder, numbers, say)
        step("installs it" if prefix else "packs it")
        if prefix:
            install(folder, prefix)
            say(f"installed to {prefix}")
        else:
            target = dist / f"{name}.tar.gz"
            pack(folder, Path(name), when, target)
            say(f"{target}, {target.stat().st_size} bytes, sha256 {tree.digest(target)}")


def check_version():
    sources = version.read_sources()
    found = version.faults(sources)
    numbers = version.numbers(sources)
    for line in found or [f"version {numbers['version']}, calls of version {numbers['abi']}, in {len(version.PLACES)} places"]:
        say(line)
    return 1 if found else 0


def main():
    parser = argparse.ArgumentParser(description="Makes a release of a proved tree.")
    parser.add_argument("--install", type=Path, metavar="PREFIX", help="write the tree to this folder instead of packing it")
    parser.add_argument("--dist", type=Path, metavar="DIR", default=version.ROOT / "dist", help="where the packed release goes (default: dist)")
    parser.add_argument("--check-version", action="store_true", help="check alone that all places have the version of the file VERSION")
    args = parser.parse_args()
    if args.check_version:
        return check_version()
    try:
        release(version.ROOT, args.install, args.dist)
    except tree.Refused as refused:
        say(f"NOT MADE: {refused}")
        return 1
    return 0


if __name__ == "__main__":
    sys.exit(main())
