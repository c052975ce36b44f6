"""The tree of a release: what is copied from a proved tree, what is made of it, and what is written."""
import hashlib
import os
import re
import shutil
import subprocess
import tempfile
from pathlib import Path

import release_version
import verdicts

ROOT = release_version.ROOT
ARCHIVE, STATION, LOG, GATE = "crates/export/out/libexport.a", "crates/station/out/station", "target/archive.log", "target/gate.log"
COPIES = {"lib/libcuddrewyn.a": ARCHIVE, "bin/station": STATION, "include/cuddrewyn.h": release_version.HEADER,
          "include/cuddrewyn_read.h": "bindings/c/cuddrewyn_read.h",
          **{f"fuzz/{name}": f"bindings/c/{name}" for name in ("fuzz.c", "fuzz_main.c", "messages.h")}}
DOCUMENTS = ["LICENSE", "NOTICE", "README.md", "CHANGELOG.md", "docs/EXPORTS.md", "docs/PORTING.md", "docs/RELEASE.md", "docs/TRUST.md", "docs/refusals.txt"]
# Copied where the repository has them.
MORE = ["docs/REFUSALS.md"]
CRATE, CRATE_PARTS = "rust/cuddrewyn", ["Cargo.toml", "build.rs", "README.md", "src/**/*.rs", "tests/**/*.rs", "examples/*"]
SHARED_OPTIONS = ["-shared", "-nostartfiles", "-Wl,-z,text", "-Wl,-z,defs", "-Wl,-z,relro,-z,now", "-Wl,-z,noexecstack", "-Wl,--build-id=sha1"]
SYMBOLS = "CUDDREWYN_{abi} {{ global: cuddrewyn_*; local: *; }};\n"
PKG_CONFIG = """prefix=${{pcfiledir}}/../..
libdir=${{prefix}}/lib
includedir=${{prefix}}/include

Name: cuddrewyn
Description: A station's assignment session over lent memory, proved in Rattle
Version: {version}
Cflags: -I${{includedir}}
Libs: -L${{libdir}} -lcuddrewyn
"""
CMAKE = """# cuddrewyn::static and cuddrewyn::shared; the folder of the release is found from this file.
get_filename_component(_cuddrewyn "${{CMAKE_CURRENT_LIST_DIR}}/../../.." ABSOLUTE)
foreach(_kind static shared)
    if(NOT TARGET cuddrewyn::${{_kind}})
        string(TOUPPER ${{_kind}} _library)
        add_library(cuddrewyn::${{_kind}} ${{_library}} IMPORTED)
        set_target_properties(cuddrewyn::${{_kind}} PROPERTIES INTERFACE_INCLUDE_DIRECTORIES "${{_cuddrewyn}}/include")
    endif()
endforeach()
set_target_properties(cuddrewyn::static PROPERTIES IMPORTED_LOCATION "${{_cuddrewyn}}/lib/libcuddrewyn.a")
set_target_properties(cuddrewyn::shared PROPERTIES IMPORTED_LOCATION "${{_cuddrewyn}}/lib/libcuddrewyn.so.{abi}"
    IMPORTED_SONAME "libcuddrewyn.so.{abi}")
unset(_cuddrewyn)
unset(_kind)
unset(_library)
"""
CMAKE_VERSION = """# Before 1.0.0 a release is for those who ask for its own minor version, at most its own patch.
set(PACKAGE_VERSION "{version}")
set(_minor "${{PACKAGE_FIND_VERSION_MAJOR}}.${{PACKAGE_FIND_VERSION_MINOR}}")
if("${{_minor}}" STREQUAL "{major}.{minor}" AND NOT PACKAGE_FIND_VERSION VERSION_GREATER PACKAGE_VERSION)
    set(PACKAGE_VERSION_COMPATIBLE TRUE)
    if(PACKAGE_FIND_VERSION VERSION_EQUAL PACKAGE_VERSION)
        set(PACKAGE_VERSION_EXACT TRUE)
    endif()
endif()
unset(_minor)
if(CMAKE_SIZEOF_VOID_P AND NOT CMAKE_SIZEOF_VOID_P EQUAL 8)
    set(PACKAGE_VERSION_UNSUITABLE TRUE)
endif()
"""


class Refused(Exception):
    """Why no release is made."""


def last_line(path):
    lines = path.read_text(encoding="utf-8", errors="replace").splitlines() if path.is_file() else []
    return lines[-1] if lines else ""


def faults(root, abi):
    """Why the tree is none that is proved."""
    missing = [path for path in (ARCHIVE, STATION, LOG) if not (root / path).is_file()]
    if missing:
        return [f"{path} is missing: .ci/run makes it" for path in missing]
    log, archive = root / LOG, root / ARCHIVE
    found = [f"{LOG}: {fault}" for fault in verdicts.faults(log.read_text(encoding="utf-8", errors="replace"))]
    if log.stat().st_mtime < archive.stat().st_mtime:
        found.append(f"{LOG} is older than {ARCHIVE}: it is not its log")
    if f"cuddrewyn_abi_{abi}\0".encode() not in archive.read_bytes():
        found.append(f"{ARCHIVE} is not of version {abi} of the calls, as the header is")
    gate = re.fullmatch(r"\d+ passed, (\d+) failed", last_line(root / GATE))
    if gate and gate[1] != "0":
        found.append(f"{GATE} closed with {gate[0]}")
    return found


def copy(source, target, mode=0o644):
    target.parent.mkdir(parents=True, exist_ok=True)
    shutil.copyfile(source, target)
    target.chmod(mode)


def write(target, text):
    target.parent.mkdir(parents=True, exist_ok=True)
    target.write_text(text, encoding="utf-8")
    target.chmod(0o644)


def copy_files(root, folder):
    """The archive, the program, the headers, the fuzz target, the documents."""
    for name, source in COPIES.items():
        copy(root / source, folder / name, 0o755 if name.startswith("bin/") else 0o644)
    for name in DOCUMENTS + [name for name in MORE if (root / name).is_file()]:
        copy(root / name, folder / name)


def link_shared(folder, abi):
    """The shared library, of the archive whole; the calls alone are seen from outside."""
    name = f"libcuddrewyn.so.{abi}"
    with tempfile.NamedTemporaryFile("w", suffix=".map") as symbols:
        symbols.write(SYMBOLS.format(abi=abi))
        symbols.flush()
        command = [os.environ.get("CC", "cc"), *SHARED_OPTIONS, f"-Wl,-soname,{name}", f"-Wl,--version-script,{symbols.name}",
                   "-Wl,--whole-archive", str(folder / "lib/libcuddrewyn.a"), "-Wl,--no-whole-archive", "-o", str(folder / "lib" / name)]
        try:
            done = subprocess.run(command, capture_output=True, text=True)
        except OSError as error:
            raise Refused(f"the shared library is not made: {error}") from None
    if done.returncode:
        raise Refused(f"the shared library is not made: {done.stderr.strip()}")
    (folder / "lib" / name).chmod(0o755)
    (folder / "lib/libcuddrewyn.so").symlink_to(name)


def write_packages(folder, numbers):
    """What pkg-config and CMake read."""
    write(folder / "lib/pkgconfig/cuddrewyn.pc", PKG_CONFIG.format(**numbers))
    write(folder / "lib/cmake/cuddrewyn/cuddrewyn-config.cmake", CMAKE.format(**numbers))
    write(folder / "lib/cmake/cuddrewyn/cuddrewyn-config-version.cmake", CMAKE_VERSION.format(**numbers))


def copy_crate(root, folder):
    """The Rust crate, with the archive, the licence and the notice inside."""
    crate = root / "bindings/rust"
    for path in sorted({path for part in CRATE_PARTS for path in crate.glob(part) if path.is_file()}):
        copy(path, folder / CRATE / path.relative_to(crate))
    for name, source in {"libcuddrewyn.a": ARCHIVE, "LICENSE": "LICENSE", "NOTICE": "NOTICE"}.items():
        copy(root / source, folder / CRATE / name)


def digest(path):
    return hashlib.sha256(path.read_bytes()).hexdigest()


def said(command, root):
    """What a command writes, none where it is not there or fails."""
    try:
        done = subprocess.run(command, cwd=root, capture_output=True, text=True)
    except OSError:
        return ""
    return done.stdout.strip() if done.returncode == 0 else ""


def proof_text(root, folder, version):
    """What the proof said: the commit, the logic, the verdicts, the count of the gate."""
    commit = said(["git", "rev-parse", "HEAD"], root) or "unknown"
    changed = ", with changes that are not committed" if said(["git", "status", "--porcelain"], root) else ""
    logic = re.search(rb"rattle (logic=[0-9a-f]+)", (root / ARCHIVE).read_bytes())
    log, gate = ((root / path).read_text(encoding="utf-8", errors="replace") if (root / path).is_file() else "" for path in (LOG, GATE))
    # the station's part of the gate's log; where the gate took it from an earlier run, that has it
    station = re.search(r"^== station\n(.*?)^rt: station (?:NOT )?proved|^rt: (station is kept: .*)$", gate, re.M | re.S)
    verdict = re.findall(r"^logic=.*$", station[1], re.M) if station and station[1] else [station[2]] if station else []
    lines = [f"Cuddrewyn {version} for x86-64 Linux: what the proof said. docs/RELEASE.md tells how to read it.", "",
             f"commit: {commit}{changed}", f"rt version: {said(['rt', 'version'], root) or 'not at hand'}",
             f"the archive's own record: {logic[1].decode() if logic else 'none'}",
             f"lib/libcuddrewyn.a: sha256 {digest(folder / 'lib/libcuddrewyn.a')}", "",
             "The archive, every call against its definition:", *re.findall(r"^logic=.*$", log, re.M), "",
             "The program station; `axioms=` counts its reading and writing, which is trusted:", *(verdict[-1:] or ["not recorded"]), "",
             "Every crate and every wrong program (rt ci):", *re.findall(r"^rt: ok; .*$", gate, re.M), last_line(root / GATE) or "not recorded", ""]
    return "\n".join(lines)


def write_sums(folder):
    """SHA256SUMS: every file but itself; links are not listed."""
    files = sorted(str(path.relative_to(folder)) for path in folder.rglob("*") if path.is_file() and not path.is_symlink())
    write(folder / "SHA256SUMS", "".join(f"{digest(folder / name)}  {name}\n" for name in files))
    return len(files)


def make(root, folder, numbers, say):
    """Writes the tree to a folder that is empty."""
    copy_files(root, folder)
    say(f"lib/libcuddrewyn.a, {(folder / 'lib/libcuddrewyn.a').stat().st_size} bytes")
    link_shared(folder, numbers["abi"])
    say(f"lib/libcuddrewyn.so.{numbers['abi']}")
    write_packages(folder, numbers)
    copy_crate(root, folder)
    say(CRATE)
    write(folder / "PROOF.txt", proof_text(root, folder, numbers["version"]))
    say(f"SHA256SUMS of {write_sums(folder)} files")
