//! Links the proved library, if a feature asks for calls of it.

use std::env;
use std::path::PathBuf;

const GROUPS: [&str; 11] =
    ["CODEC", "NAMES", "PLAN", "ORDER", "IMPORT", "TOLERANT", "STRETCHES", "GAPS", "PCAP", "SIZES", "LINKS"];

fn main() {
    println!("cargo:rerun-if-env-changed=LUMBRYTH_LIB_DIR");
    if GROUPS.iter().all(|g| env::var_os(format!("CARGO_FEATURE_{g}")).is_none()) {
        return;
    }
    let dir = match env::var_os("LUMBRYTH_LIB_DIR") {
        Some(dir) => PathBuf::from(dir),
        None => PathBuf::from(env::var("CARGO_MANIFEST_DIR").unwrap()).join("../target/staticlib"),
    };
    println!("cargo:rerun-if-changed={}", dir.join("liblumbryth.a").display());
    println!("cargo:rustc-link-search=native={}", dir.display());
    println!("cargo:rustc-link-lib=static=lumbryth");
}
