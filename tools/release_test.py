#!/usr/bin/env python3
"""Tests a release as one uses it who has no prover: made of this proved tree, unpacked into an empty folder, with a PATH that has no `rt`.

    python3 tools/release_test.py [PART...]     PART: tree, c, cmake or rust; where none is named, all

tree    the files, their sums, the calls that the shared library shows; the same bytes when made again; installed below a prefix; what is not
        proved is refused, and so is a version that differs; station replays the recorded sessions
c       bindings/release/session.c by pkg-config, with the archive and with the shared library; the fuzz target with its own driver
cmake   the same by find_package
rust    bindings/release/session.rs with the crate by its path; the crate packed by cargo

Each program has to print what bindings/release/session.stdout has. The exit status is 1 where something is wrong; else 3 where a program that a
part needs is not on this machine; else 0.
"""
import argparse
import os
import shutil
import subprocess
import sys
import tarfile
import tempfile
import time
from pathlib import Path

import declarations
import release_tree as tree
import release_version as version

ROOT = version.ROOT
PROGRAMS = ROOT / "bindings/release"
CC = os.environ.get("CC", "cc")
# How many scripts the fuzz target runs.
FUZZ = 5000
# What a setting of this machine could hand to a build besides the release.
SETTINGS = ("CUDDREWYN_", "PKG_CONFIG", "CMAKE_", "CARGO_TARGET_DIR", "CARGO_BUILD_", "LD_LIBRARY_PATH", "LIBRARY_PATH", "CPATH", "RUSTFLAGS",
            "CFLAGS", "LDFLAGS")
CARGO = '[package]\nname = "session"\nversion = "0.0.0"\nedition = "2024"\n\n[dependencies]\ncuddrewyn = {{ path = "{crate}" }}\n\n[workspace]\n'


class Missing(Exception):
    """A program that is not on this machine."""


class Wrong(Exception):
    """What is not as it should be."""


def say(text):
    print("release_test: " + text, flush=True)


def step(command):
    """On a terminal, what is being done now, on standard error."""
    if sys.stderr.isatty():
        print("release_test: " + " ".join(map(str, command))[:120], file=sys.stderr, flush=True)


def demand(holds, what):
    if not holds:
        raise Wrong(what)


def need(*names):
    for name in names:
        if not shutil.which(name):
            raise Missing(f"{name} is not on the PATH")


def run(command, folder, env=None):
    """What a command writes to its output; it has to end well."""
    step(command)
    done = subprocess.run([str(word) for word in command], cwd=folder, env=env, capture_output=True, text=True, timeout=300)
    demand(done.returncode == 0, f"{' '.join(map(str, command))}: exit {done.returncode}\n{done.stdout}{done.stderr}")
    return done.stdout


def path_without_prover(links):
    """The PATH without `rt`: a folder that has it is replaced by one of links to all else in it."""
    links.mkdir()
    kept = []
    for folder in filter(os.path.isdir, os.get_exec_path()):
        if not os.path.exists(os.path.join(folder, "rt")):
            kept.append(folder)
            continue
        for name in os.listdir(folder):
            if name != "rt" and not (links / name).is_symlink():
                (links / name).symlink_to(os.path.join(folder, name))
        kept.append(str(links))
    return os.pathsep.join(kept)


class Place:
    """A release that was made and unpacked, and the environment of those who use it."""

    def __init__(self, work):
        need(CC)
        self.work, self.numbers = work, version.numbers(version.read_sources())
        demand(self.numbers is not None, "VERSION or the header has no version")
        self.name = version.release_name(self.numbers)
        self.packed = self.make("--dist", work / "dist") / "dist" / f"{self.name}.tar.gz"
        with tarfile.open(self.packed) as tar:
            tar.extractall(work / "empty")
        self.release = work / "empty" / self.name
        kept = {name: value for name, value in os.environ.items() if not name.startswith(SETTINGS)}
        self.env = {**kept, "PATH": path_without_prover(work / "links")}
        demand(shutil.which("rt", path=self.env["PATH"]) is None, "rt is on the PATH")
        self.wanted = f"cuddrewyn {self.numbers['version']}, calls of version {self.numbers['abi']}\n" + (PROGRAMS / "session.stdout").read_text()
        self.soname = f"libcuddrewyn.so.{self.numbers['abi']}"

    def make(self, *words):
        run([sys.executable, ROOT / "tools/release.py", *words], ROOT)
        return self.work

    def run(self, command, folder=None, **settings):
        return run(command, folder or self.work, {**self.env, **{name: str(value) for name, value in settings.items()}})

    def check(self, program, kind, **settings):
        """A program of either kind: it needs the shared library or does not, and prints what is wanted."""
        demand((self.soname.encode() in program.read_bytes()) == (kind == "shared"), f"{program.name}: needs the shared library, or does not")
        printed = self.run([program], **settings)
        demand(printed == self.wanted, f"{program.name} printed\n{printed}and not\n{self.wanted}")


def check_sums(folder):
    """Every file but SHA256SUMS stands in it, and has its sum."""
    run(["sha256sum", "--check", "--quiet", "SHA256SUMS"], folder)
    listed = {line.split("  ", 1)[1] for line in (folder / "SHA256SUMS").read_text().splitlines()}
    files = {str(path.relative_to(folder)) for path in folder.rglob("*") if path.is_file() and not path.is_symlink()}
    demand(files - {"SHA256SUMS"} == listed, f"SHA256SUMS lists {listed ^ (files - {'SHA256SUMS'})}, or does not")


def check_files(place):
    wanted = [*tree.COPIES, *tree.DOCUMENTS, "PROOF.txt", f"lib/{place.soname}", "lib/libcuddrewyn.so", "lib/pkgconfig/cuddrewyn.pc",
              "lib/cmake/cuddrewyn/cuddrewyn-config.cmake", f"{tree.CRATE}/libcuddrewyn.a", f"{tree.CRATE}/Cargo.toml", f"{tree.CRATE}/NOTICE"]
    for name in wanted:
        demand((place.release / name).is_file(), f"{name} is not there")
    shown = run(["nm", "-D", "--defined-only", place.release / "lib" / place.soname], ROOT)
    shown = {words[2].split("@")[0] for words in map(str.split, shown.splitlines()) if words[1] != "A"}
    declared = set(declarations.prototypes({declarations.HEADER: (place.release / "include/cuddrewyn.h").read_text()}))
    demand(shown == declared, f"the shared library shows, or the header declares: {shown ^ declared}")


def check_install(place):
    """The same tree below a prefix, twice; a folder with other files is refused."""
    for _ in range(2):
        place.make("--install", place.work / "prefix")
        check_sums(place.work / "prefix")
    demand((place.work / "prefix/SHA256SUMS").read_bytes() == (place.release / "SHA256SUMS").read_bytes(), "what is installed differs")
    (place.work / "other").mkdir()
    (place.work / "other/file").touch()
    try:
        place.make("--install", place.work / "other")
    except Wrong:
        return
    raise Wrong("a folder with other files is taken as a prefix")


def check_refusals(place):
    """A tree that is not proved is refused: a file less, another verdict, an older log, another version of the calls."""
    root, abi = place.work / "unproved", place.numbers["abi"]
    proved = [tree.ARCHIVE, tree.STATION, tree.LOG]
    for name in proved:
        tree.copy(ROOT / name, root / name)
    demand(not tree.faults(root, abi), f"a proved tree is refused: {tree.faults(root, abi)}")
    demand(tree.faults(root, abi + "0"), "an archive of other calls is taken")
    for name in proved:
        (root / name).rename(root / "kept")
        demand(tree.faults(root, abi), f"a tree without {name} is taken")
        (root / "kept").rename(root / name)
    log = (ROOT / tree.LOG).read_text(encoding="utf-8", errors="replace")
    for word in ("axioms=1", "foreign=1", "cache=1", "hides=1", "bugs=1"):
        tree.write(root / tree.LOG, log.replace("logic=proved", f"logic=proved {word}"))
        demand(tree.faults(root, abi), f"a verdict with {word} is taken")
    tree.write(root / tree.LOG, log)
    os.utime(root / tree.LOG, (0, 0))
    demand(tree.faults(root, abi), "a log older than the archive is taken")
    tree.copy(ROOT / tree.LOG, root / tree.LOG)
    tree.write(root / tree.GATE, "7 passed, 1 failed\n")
    demand(tree.faults(root, abi), "a gate that failed is taken")


def check_versions():
    """Each place that repeats a version is found where it differs."""
    sources = version.read_sources()
    demand(not version.faults(sources), "; ".join(version.faults(sources)))
    for path, pattern, _ in version.PLACES:
        found = version.re.search(pattern, sources[path], version.re.M)
        changed = sources[path][:found.start(1)] + "9" + sources[path][found.end(1):]
        demand(version.faults({**sources, path: changed}), f"{path}: another number for `{pattern}` is not found")
    demand(version.faults({**sources, version.VERSION: "9.9.9\n"}), "another VERSION is not found")


def test_tree(place):
    need("sha256sum", "nm")
    check_versions()
    check_sums(place.release)
    check_files(place)
    first = place.packed.read_bytes()
    place.make("--dist", place.work / "dist")
    demand(place.packed.read_bytes() == first, "made again, it has other bytes")
    check_install(place)
    check_refusals(place)
    with open(ROOT / "compare/recorded/stdin", "rb") as given:
        printed = subprocess.run([place.release / "bin/station", "--lists", "--state"], stdin=given, env=place.env, capture_output=True).stdout
    demand(printed == (ROOT / "compare/recorded/stdout").read_bytes(), "bin/station prints something else than the recorded sessions have")


def test_c(place):
    need("pkg-config")
    ask = {"PKG_CONFIG_LIBDIR": place.release / "lib/pkgconfig"}
    given = place.run(["pkg-config", "--modversion", "cuddrewyn"], **ask).strip()
    demand(given == place.numbers["version"], f"pkg-config says version {given}")
    flags, libraries = (place.run(["pkg-config", word, "cuddrewyn"], **ask).split() for word in ("--cflags", "--libs"))
    compile, static = [CC, "-std=c11", "-Wall", "-Wextra", "-Werror", "-pedantic", *flags], ["-Wl,-Bstatic", *libraries, "-Wl,-Bdynamic"]
    place.run([*compile, PROGRAMS / "session.c", *libraries, "-o", "by_shared"])
    place.check(place.work / "by_shared", "shared", LD_LIBRARY_PATH=place.release / "lib")
    place.run([*compile, PROGRAMS / "session.c", *static, "-o", "by_static"])
    place.check(place.work / "by_static", "static")
    place.run([*compile, "-O1", place.release / "fuzz/fuzz.c", place.release / "fuzz/fuzz_main.c", *static, "-o", "fuzz"])
    place.run([place.work / "fuzz", FUZZ])


def test_cmake(place):
    need("cmake", "make")
    wanted = {"CMAKE_PREFIX_PATH": place.release, "WANTED": place.numbers["version"], "CMAKE_C_COMPILER": CC}
    place.run(["cmake", "-G", "Unix Makefiles", "-S", PROGRAMS, "-B", "built", *(f"-D{name}={value}" for name, value in wanted.items())])
    place.run(["cmake", "--build", "built"])
    for kind in ("static", "shared"):
        place.check(place.work / f"built/session_{kind}", kind)


def test_rust(place):
    need("cargo")
    crate, user = place.release / tree.CRATE, place.work / "user"
    tree.write(user / "Cargo.toml", CARGO.format(crate=crate))
    tree.copy(PROGRAMS / "session.rs", user / "src/main.rs")
    place.run(["cargo", "build", "--quiet", "--offline"], user)
    place.check(user / "target/debug/session", "static")
    place.run(["cargo", "package", "--quiet", "--offline", "--allow-dirty", "--no-verify"], crate, CARGO_TARGET_DIR=place.work / "package")
    packed = f"cuddrewyn-{place.numbers['version']}"
    with tarfile.open(place.work / f"package/package/{packed}.crate") as tar:
        names = set(tar.getnames())
    for name in ("libcuddrewyn.a", "LICENSE", "NOTICE", "README.md", "build.rs", "src/lib.rs"):
        demand(f"{packed}/{name}" in names, f"cargo packs no {name}")


PARTS = {"tree": test_tree, "c": test_c, "cmake": test_cmake, "rust": test_rust}


def test(name):
    """One part, in a folder of its own: the exit status that it stands for."""
    began = time.monotonic()
    with tempfile.TemporaryDirectory() as work:
        try:
            PARTS[name](Place(Path(work)))
        except Missing as missing:
            say(f"{name}: NOT RUN: {missing}")
            return 3
        except (Wrong, OSError, subprocess.TimeoutExpired) as wrong:
            say(f"{name}: WRONG: {wrong}")
            return 1
    say(f"{name}: ok, {time.monotonic() - began:.1f} s")
    return 0


def main():
    parser = argparse.ArgumentParser(description="Tests a release without the prover.")
    parser.add_argument("parts", nargs="*", metavar="PART", help=f"of {', '.join(PARTS)} (default: all)")
    parts = parser.parse_args().parts or list(PARTS)
    if unknown := set(parts) - set(PARTS):
        parser.error(f"no part is named {', '.join(sorted(unknown))}")
    found = [test(name) for name in parts]
    return 1 if 1 in found else max(found)


if __name__ == "__main__":
    sys.exit(main())
