//! Links the archives of the proved session run and of the library's other calls, where the feature asks for them, and QuickFIX where it
//! is installed.

use std::path::Path;
use std::process::Command;

/// Runs a command; whether it succeeded.
fn run(command: &str, words: &[&str]) -> bool {
    let status = Command::new(command).args(words).status();
    status.is_ok_and(|s| s.success())
}

/// QuickFIX's parse, as `cfg(quickfix)`; nothing where the package or a C++ compiler is missing.
fn quickfix() {
    println!("cargo:rustc-check-cfg=cfg(quickfix)");
    println!("cargo:rerun-if-changed=src/quickfix.cpp");
    println!("cargo:rerun-if-changed=/usr/include/quickfix");
    if !Path::new("/usr/include/quickfix/Message.h").exists() {
        return;
    }
    let folder = std::env::var("OUT_DIR").unwrap();
    let (object, archive) = (format!("{folder}/quick.o"), format!("{folder}/libquick.a"));
    let flags = ["-std=c++14", "-O2", "-w", "-c", "src/quickfix.cpp", "-o"];
    if !run("c++", &[&flags[..], &[&object]].concat()) || !run("ar", &["rcs", &archive, &object]) {
        println!("cargo:warning=QuickFIX is installed, but its parse could not be compiled");
        return;
    }
    println!("cargo:rustc-link-search=native={folder}");
    println!("cargo:rustc-link-lib=static=quick");
    println!("cargo:rustc-link-lib=quickfix");
    println!("cargo:rustc-link-lib=stdc++");
    println!("cargo:rustc-cfg=quickfix");
}

fn main() {
    println!("cargo:rerun-if-changed=build.rs");
    quickfix();
    if std::env::var_os("CARGO_FEATURE_PROVED").is_none() {
        return;
    }
    let folder = std::env::var("CARGO_MANIFEST_DIR").unwrap() + "/../target/staticlib";
    println!("cargo:rustc-link-search=native={folder}");
    for name in ["session", "quoting_others", "c_call", "c_records"] {
        let archive = format!("{folder}/lib{name}.a");
        if !Path::new(&archive).exists() {
            panic!("no target/staticlib/lib{name}.a: run `make bench`, which writes it first");
        }
        println!("cargo:rerun-if-changed={archive}");
        println!("cargo:rustc-link-lib=static={name}");
    }
}
