"""The version of a release, the file VERSION, and the places that repeat it; likewise the version of the calls, CUDDREWYN_ABI of the header."""
import re
from pathlib import Path

ROOT = Path(__file__).resolve().parent.parent
VERSION, HEADER, CARGO, CHANGES = "VERSION", "bindings/c/cuddrewyn.h", "bindings/rust/Cargo.toml", "CHANGELOG.md"
RAW, BUILD = "bindings/rust/src/raw.rs", "bindings/rust/build.rs"
ABI = r"^#define CUDDREWYN_ABI (\d+)$"
# Each place: the file, what stands there, and which number it is: the whole version, a part of it, or that of the calls.
PLACES = [
    (HEADER, r'^#define CUDDREWYN_VERSION "(.*)"$', "version"),
    (HEADER, r"^#define CUDDREWYN_VERSION_MAJOR (\d+)$", "major"),
    (HEADER, r"^#define CUDDREWYN_VERSION_MINOR (\d+)$", "minor"),
    (HEADER, r"^#define CUDDREWYN_VERSION_PATCH (\d+)$", "patch"),
    (CARGO, r'^version = "(.*)"$', "version"),
    (CHANGES, r"\A(?:(?!## ).*\n)*## ([^\s,]+)", "version"),
    (HEADER, r"^#define cuddrewyn_abi cuddrewyn_abi_(\d+)$", "abi"),
    (RAW, r"^pub const ABI: u32 = (\d+);$", "abi"),
    (RAW, r'^ *#\[link_name = "cuddrewyn_abi_(\d+)"\]$', "abi"),
    (BUILD, r'^const ABI: .*b"cuddrewyn_abi_(\d+)\\0";$', "abi"),
]


def read_sources():
    return {path: (ROOT / path).read_text(encoding="utf-8") for path in sorted({VERSION, *(path for path, _, _ in PLACES)})}


def numbers(sources):
    """The numbers as VERSION and the header have them, by their names; None where VERSION or the header has none."""
    whole = re.fullmatch(r"(\d+)\.(\d+)\.(\d+)\n", sources[VERSION])
    abi = re.search(ABI, sources[HEADER], re.M)
    if not whole or not abi:
        return None
    return {"version": whole[0].strip(), "major": whole[1], "minor": whole[2], "patch": whole[3], "abi": abi[1]}


def faults(sources):
    """Each place that has another number than it should."""
    wanted = numbers(sources)
    if wanted is None:
        return [f"{VERSION} is no line of three numbers, or {HEADER} has no CUDDREWYN_ABI"]
    found = []
    for path, pattern, name in PLACES:
        places = re.findall(pattern, sources[path], re.M)
        if places != [wanted[name]]:
            found.append(f"{path}: {' and '.join(places) or 'nothing'} where `{pattern}` should have the {name} {wanted[name]}")
    return found


def release_name(wanted):
    return f"cuddrewyn-{wanted['version']}-x86_64-linux"
