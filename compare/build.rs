//! Names the Rust's own files by path, from the folder CUDDREWYN_RUST (nothing of them is copied), links libexport.a of the folder CUDDREWYN_LIB,
//! and reads how many topics the watch's windows hold, and which refusals are ours.
use std::{env, fs, path::Path, path::PathBuf};

/// The watch's windows and chunks: crate and constant. One that is not there is an error: name here what took its place.
const WINDOWS: [(&str, &str); 3] = [("watch_lists", "FEW"), ("watch_lists", "WINDOW"), ("watch_sort", "CHUNK")];

/// The lengths of a message at which the watch takes another window.
const LENGTHS: [(&str, &str); 1] = [("watch_lists", "FEW_BYTES")];

fn root() -> PathBuf {
    Path::new(&env::var("CARGO_MANIFEST_DIR").expect("CARGO_MANIFEST_DIR")).join("..")
}

/// The folder that a setting names, or its default below the repository's root.
fn folder(setting: &str, default: &str) -> PathBuf {
    println!("cargo:rerun-if-env-changed={setting}");
    let named = env::var(setting).map_or_else(|_| root().join(default), PathBuf::from);
    named.canonicalize().unwrap_or_else(|_| panic!("{setting}: there is no folder {}", named.display()))
}

/// The number of a line `const NAME: usize = N;` in a crate's code.
fn constant(library: &str, name: &str) -> usize {
    let folder = root().join("crates").join(library).join("src");
    println!("cargo:rerun-if-changed={}", folder.display());
    let start = format!("const {name}: usize = ");
    let files = fs::read_dir(&folder).map_or_else(|_| Vec::new(), |files| files.flatten().map(|file| file.path()).collect());
    let texts = files.iter().filter_map(|file| fs::read_to_string(file).ok());
    let lines: Vec<String> = texts.flat_map(|text| text.lines().map(String::from).collect::<Vec<_>>()).collect();
    let number = lines.iter().find_map(|line| line.trim_start_matches("pub ").strip_prefix(&start)?.strip_suffix(';')?.parse().ok());
    number.unwrap_or_else(|| panic!("crates/{library}/src has no line `{start}N;`: compare/build.rs names the constants of the watch's windows"))
}

/// A row of constants with their names; of those with one number the first.
fn row(name: &str, constants: &[(&str, &str)]) -> String {
    let mut numbers: Vec<(&str, usize)> = constants.iter().map(|(library, name)| (*name, constant(library, name))).collect();
    let mut seen = std::collections::BTreeSet::new();
    numbers.retain(|(_, number)| seen.insert(*number));
    let pairs: Vec<String> = numbers.iter().map(|(name, number)| format!("({name:?}, {number})")).collect();
    format!("pub const {name}: &[(&str, usize)] = &[{}];\n", pairs.join(", "))
}

/// The numbers of docs/refusals.txt that the Rust does not have.
fn ours() -> String {
    let path = root().join("docs/refusals.txt");
    println!("cargo:rerun-if-changed={}", path.display());
    let text = fs::read_to_string(&path).expect("docs/refusals.txt");
    let heads = text.lines().filter_map(|line| line.strip_suffix(", ours")?.split_once(' '));
    let numbers: Vec<&str> = heads.map(|(number, _)| number).collect();
    assert!(!numbers.is_empty(), "docs/refusals.txt has no line `NUMBER NAME, ours`");
    format!("pub const OURS: &[u8] = &[{}];\n", numbers.join(", "))
}

fn main() {
    let sources = folder("CUDDREWYN_RUST", "../shared/docs/src").join("crates/magnetar-proto/src");
    let file = |name: &str| sources.join(name).display().to_string();
    let mut lines = format!("#[allow(dead_code, clippy::all)]\nmod pb {{\n    include!({:?});\n}}\n", file("pb/pulsar.proto.rs"));
    for name in ["scalable_consumer", "types"] {
        lines += &format!("#[allow(dead_code)]\n#[path = {:?}]\nmod {name};\n", file(&format!("{name}.rs")));
    }
    let out = PathBuf::from(env::var("OUT_DIR").expect("OUT_DIR"));
    fs::write(out.join("sources.rs"), lines).expect("sources.rs");
    fs::write(out.join("windows.rs"), row("WINDOWS", &WINDOWS) + &row("LENGTHS", &LENGTHS)).expect("windows.rs");
    fs::write(out.join("ours.rs"), ours()).expect("ours.rs");
    let library = folder("CUDDREWYN_LIB", "crates/export/out");
    println!("cargo:rerun-if-changed={}", library.join("libexport.a").display());
    println!("cargo:rustc-link-search=native={}", library.display());
    println!("cargo:rustc-link-lib=static=export");
}
