//! Links the library named by PANEL, or `crates/panel/out/libpanel.a` of the repository, where it exists.

use std::env;
use std::path::{Path, PathBuf};

fn main() {
    println!("cargo::rustc-check-cfg=cfg(panel)");
    println!("cargo::rerun-if-env-changed=PANEL");
    let library = library();
    println!("cargo::rerun-if-changed={}", library.display());
    if library.is_file() {
        println!("cargo::rustc-cfg=panel");
        println!("cargo::rustc-link-arg={}", library.display());
    }
}

fn library() -> PathBuf {
    match env::var_os("PANEL") {
        Some(file) if !file.is_empty() => file.into(),
        _ => Path::new(&env::var_os("CARGO_MANIFEST_DIR").expect("set by cargo"))
            .join("../../../crates/panel/out/libpanel.a"),
    }
}
