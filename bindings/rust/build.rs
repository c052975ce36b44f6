//! Finds the archive of the proved library, sees that it is of the version that this crate is for, and links it.
//!
//! It stands beside this file in a release. Else the folder is that of the setting CUDDREWYN_LIB, or crates/export/out of the repository.

use std::env;
use std::fs;
use std::path::{Path, PathBuf};

/// The archive's names: in a release, and as the toolchain writes it.
const NAMES: [&str; 2] = ["cuddrewyn", "export"];
/// The function whose name has the version: the layout of the structs and the parameters of the calls.
const ABI: &[u8] = b"cuddrewyn_abi_3\0";

fn main() {
    println!("cargo::rerun-if-env-changed=CUDDREWYN_LIB");
    let target = [setting("CARGO_CFG_TARGET_ARCH"), setting("CARGO_CFG_TARGET_OS")];
    if target != ["x86_64", "linux"] {
        println!("cargo::error=the proved library is for x86-64 Linux, not for {}", target.join(" "));
        return;
    }
    let folders = folders();
    let mut places = folders.iter().flat_map(|folder| NAMES.map(|name| (folder, name)));
    let Some((folder, name)) = places.find(|(folder, name)| archive(folder, name).is_file()) else {
        println!("cargo::error=the proved library is neither beside build.rs nor in {}", folders[1].display());
        println!("cargo::error=make it with `rt lib` in the repository's folder crates/export,");
        println!("cargo::error=or set CUDDREWYN_LIB to the folder that holds libcuddrewyn.a or libexport.a");
        return;
    };
    let archive = archive(folder, name);
    println!("cargo::rerun-if-changed={}", archive.display());
    if !has_version(&archive) {
        println!("cargo::error=the proved library is of another version than this crate: {}", archive.display());
        return;
    }
    println!("cargo::rustc-link-search=native={}", folder.display());
    println!("cargo::rustc-link-lib=static={name}");
}

fn archive(folder: &Path, name: &str) -> PathBuf {
    folder.join(format!("lib{name}.a"))
}

/// Whether the archive's list of symbols has the function of this version.
fn has_version(archive: &Path) -> bool {
    fs::read(archive).is_ok_and(|bytes| bytes.windows(ABI.len()).any(|symbol| symbol == ABI))
}

/// Where the archive is looked for, in this order. A relative setting starts at the folder of this crate.
fn folders() -> [PathBuf; 2] {
    let here = PathBuf::from(setting("CARGO_MANIFEST_DIR"));
    let other = match env::var_os("CUDDREWYN_LIB") {
        Some(folder) if !folder.is_empty() => here.join(folder),
        _ => here.join("../../crates/export/out"),
    };
    [here, other]
}

fn setting(name: &str) -> String {
    env::var(name).unwrap_or_default()
}
