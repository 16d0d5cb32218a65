//! Copies the Rust source, unchanged, beside the stand-ins for the modules it
//! does not come with, and writes the root that names them. Builds `oracle`, and
//! `heard`, where the module of frames stands behind one that hears its scanners.

use std::path::{Path, PathBuf};
use std::{env, fs};

fn copy(from: &Path, to: &Path) {
    println!("cargo:rerun-if-changed={}", from.display());
    fs::copy(from, to).unwrap_or_else(|e| panic!("{}: {e}", from.display()));
}

fn main() {
    println!("cargo:rerun-if-env-changed=LUMBRYTH_SOURCE");
    let here = PathBuf::from(env::var("CARGO_MANIFEST_DIR").unwrap());
    let source = match env::var_os("LUMBRYTH_SOURCE") {
        Some(dir) => PathBuf::from(dir),
        None => here.join("../../../shared/docs/src"),
    }
    .join("src");
    let standins = here.join("../oracle/standins");
    let out = PathBuf::from(env::var("OUT_DIR").unwrap());
    fs::create_dir_all(out.join("mdr/frame")).unwrap();
    for file in ["capture.rs", "mdr/mod.rs", "mdr/payload.rs"] {
        copy(&source.join(file), &out.join(file));
    }
    let frames = source.join("mdr/frame.rs");
    if env::var("CARGO_PKG_NAME").unwrap() == "heard" {
        copy(&frames, &out.join("mdr/frame/source.rs"));
        copy(&standins.join("scanner.rs"), &out.join("mdr/frame.rs"));
    } else {
        copy(&frames, &out.join("mdr/frame.rs"));
    }
    copy(&standins.join("sony.rs"), &out.join("sony.rs"));
    copy(&standins.join("encode.rs"), &out.join("mdr/encode.rs"));
    let module = |name: &str, file: &str| format!("#[path = {:?}]\npub mod {name};\n", out.join(file));
    let root = module("capture", "capture.rs") + &module("mdr", "mdr/mod.rs") + &module("sony", "sony.rs");
    fs::write(out.join("root.rs"), root).unwrap();
}
