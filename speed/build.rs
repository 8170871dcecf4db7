//! Links libquailribbon.a from the folder that QUAILRIBBON_LIB names.

use std::env;
use std::fs;

const VARIABLE: &str = "QUAILRIBBON_LIB";

fn main() {
    println!("cargo::rerun-if-changed=build.rs");
    println!("cargo::rerun-if-env-changed={VARIABLE}");
    let Ok(folder) = env::var(VARIABLE) else {
        println!("cargo::error={VARIABLE} is not set: name the folder that holds libquailribbon.a");
        return;
    };
    // The linker runs elsewhere, so a relative folder is made absolute here.
    let Ok(library) = fs::canonicalize(format!("{folder}/libquailribbon.a")) else {
        println!("cargo::error={VARIABLE} is {folder}, but there is no {folder}/libquailribbon.a");
        return;
    };
    let folder = library.parent().expect("a file is in a folder");
    println!("cargo::rerun-if-changed={}", library.display());
    println!("cargo::rustc-link-search=native={}", folder.display());
    println!("cargo::rustc-link-lib=static=quailribbon");
}
