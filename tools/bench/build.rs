//! Compiles calls.c and calls_lists.c and links them with the library named by PANEL, by default `crates/panel/out/libpanel.a` of the repository, as many
//! bytes further behind as PAD says. Where {fmt} is installed, calls_fmt.cpp is compiled and linked too, and `has_fmt` is set.

use std::path::{Path, PathBuf};
use std::process::{Command, Stdio};
use std::{env, fs};

fn main() {
    let here = PathBuf::from(env::var_os("CARGO_MANIFEST_DIR").expect("set by cargo"));
    let header = here.join("../../panel");
    let library = match env::var_os("PANEL") {
        Some(file) if !file.is_empty() => PathBuf::from(file),
        _ => here.join("../../crates/panel/out/libpanel.a"),
    };
    assert!(fs::metadata(&library).is_ok(), "{}: no such library; PANEL names it", library.display());
    let folder = PathBuf::from(env::var_os("OUT_DIR").expect("set by cargo"));
    let [object, of_lists] = ["calls", "calls_lists"].map(|name| {
        let object = folder.join(name).with_extension("o");
        let compiled = Command::new("gcc")
            .args(["-O2", "-Wall", "-Wextra", "-Werror", "-Wno-format-security", "-c", &format!("{name}.c"), "-I"])
            .arg(&header)
            .arg("-o")
            .arg(&object)
            .status();
        assert!(compiled.is_ok_and(|status| status.success()), "gcc failed on {name}.c");
        object
    });
    // A file that is missing makes this run again, so that {fmt} is seen once it is installed.
    let in_fmt = PathBuf::from("/usr/include/fmt/format.h");
    for source in ["calls.c", "calls_lists.c", "calls_fmt.cpp"] {
        println!("cargo::rerun-if-changed={}", here.join(source).display());
    }
    for file in [&header.join("panel.h"), &library, &in_fmt] {
        println!("cargo::rerun-if-changed={}", file.display());
    }
    println!("cargo::rerun-if-env-changed=PANEL");
    println!("cargo::rerun-if-env-changed=PAD");
    println!("cargo::rustc-link-arg={}", object.display());
    println!("cargo::rustc-link-arg={}", padding(&folder).display());
    // The linker leaves out what nothing names.
    println!("cargo::rustc-link-arg=-Wl,--undefined=bench_padding");
    println!("cargo::rustc-link-arg={}", library.display());
    // Behind the library, so that it does not move it.
    println!("cargo::rustc-link-arg={}", of_lists.display());
    println!("cargo::rustc-check-cfg=cfg(has_fmt)");
    if has_fmt(&folder) {
        let object = folder.join("calls_fmt.o");
        let compiled = Command::new("g++")
            .args(["-O2", "-Wall", "-Wextra", "-Werror", "-c", "calls_fmt.cpp", "-o"])
            .arg(&object)
            .status();
        assert!(compiled.is_ok_and(|status| status.success()), "g++ failed on calls_fmt.cpp");
        println!("cargo::rustc-cfg=has_fmt");
        println!("cargo::rustc-link-arg={}", object.display());
        println!("cargo::rustc-link-arg=-lfmt");
        println!("cargo::rustc-link-arg=-lstdc++");
    }
}

/// An object of nothing but PAD bytes, by default none, and one more byte that carries the symbol.
fn padding(folder: &Path) -> PathBuf {
    let (source, object) = (folder.join("padding.s"), folder.join("padding.o"));
    let bytes = env::var("PAD").unwrap_or_else(|_| "0".to_owned());
    let text = format!(".globl bench_padding\n.text\nbench_padding: .skip {bytes} + 1\n.section .note.GNU-stack\n");
    fs::write(&source, text).expect("written");
    let compiled = Command::new("gcc").arg("-c").arg(&source).arg("-o").arg(&object).status();
    assert!(compiled.is_ok_and(|status| status.success()), "gcc failed on padding.s");
    object
}

/// Whether g++ finds the headers and the library of {fmt}: it is given a file that has nothing else.
fn has_fmt(folder: &Path) -> bool {
    Command::new("g++")
        .args(["-shared", "-include", "fmt/format.h", "-x", "c++", "/dev/null", "-x", "none", "-lfmt", "-o"])
        .arg(folder.join("empty.so"))
        .stderr(Stdio::null())
        .status()
        .is_ok_and(|status| status.success())
}
