//! Copies the original's source, unchanged, into the build folder.

use std::path::{Path, PathBuf};
use std::{env, fs};

fn main() {
    println!("cargo::rerun-if-env-changed=ORIGINAL");
    let source = source_folder().join("format_string.rs");
    println!("cargo::rerun-if-changed={}", source.display());
    let copy = Path::new(&env::var_os("OUT_DIR").expect("set by cargo")).join("format_string.rs");
    if let Err(e) = fs::copy(&source, copy) {
        panic!("{}: {e}; ORIGINAL names the folder of format_string.rs", source.display());
    }
}

/// ORIGINAL, or `../shared/docs/src` seen from the repository's root.
fn source_folder() -> PathBuf {
    match env::var_os("ORIGINAL") {
        Some(folder) if !folder.is_empty() => folder.into(),
        _ => Path::new(&env::var_os("CARGO_MANIFEST_DIR").expect("set by cargo")).join("../../../../shared/docs/src"),
    }
}
