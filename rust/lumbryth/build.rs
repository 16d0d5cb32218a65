//! Links the proved library, `liblumbryth.a`, and says what to run where it is missing.

use std::env;
use std::path::PathBuf;
use std::process::exit;

fn main() {
    println!("cargo:rerun-if-env-changed=LUMBRYTH_LIB_DIR");
    let dir = match env::var_os("LUMBRYTH_LIB_DIR") {
        Some(dir) => PathBuf::from(dir),
        None => PathBuf::from(env::var_os("CARGO_MANIFEST_DIR").expect("cargo says where the crate is"))
            .join("../../target/staticlib"),
    };
    let library = dir.join("liblumbryth.a");
    println!("cargo:rerun-if-changed={}", library.display());
    if !library.is_file() {
        eprintln!("The proved library is not there: {}", library.display());
        eprintln!("Run `tools/library` in the root of the project, which proves it and takes some minutes,");
        eprintln!("or set LUMBRYTH_LIB_DIR to the directory that has liblumbryth.a.");
        exit(1);
    }
    println!("cargo:rustc-link-search=native={}", dir.display());
    println!("cargo:rustc-link-lib=static=lumbryth");
}
