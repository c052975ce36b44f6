//! Names the Rust's own files by path, from the folder that CUDDREWYN_RUST names: nothing of them is copied.
use std::{env, fs, path::Path};

fn main() {
    println!("cargo:rerun-if-env-changed=CUDDREWYN_RUST");
    let sources = format!("{}/crates/magnetar-proto/src", env::var("CUDDREWYN_RUST").expect("CUDDREWYN_RUST"));
    let mut lines = format!("#[allow(dead_code, clippy::all)]\nmod pb {{\n    include!({:?});\n}}\n", format!("{sources}/pb/pulsar.proto.rs"));
    for name in ["scalable_consumer", "types"] {
        lines += &format!("#[allow(dead_code)]\n#[path = {:?}]\nmod {name};\n", format!("{sources}/{name}.rs"));
    }
    fs::write(Path::new(&env::var("OUT_DIR").expect("OUT_DIR")).join("sources.rs"), lines).expect("sources.rs");
}
