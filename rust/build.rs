//! Tells cargo where the archive is: in ADOMVIK_LIB, or where `make TARGET=..` in the repository leaves it.
use std::env;
use std::path::PathBuf;

/// The library's name for the processor that cargo builds for.
fn target() -> String {
    let triple = env::var("TARGET").unwrap();
    match triple.split('-').next() {
        Some(machine) if triple.contains("linux") => format!("{machine}-linux-gnu"),
        Some(machine @ ("riscv32imac" | "wasm32")) => machine.to_string(),
        _ => triple,
    }
}

fn main() {
    println!("cargo:rerun-if-env-changed=ADOMVIK_LIB");
    let built = PathBuf::from(env::var("CARGO_MANIFEST_DIR").unwrap()).join("../target/ports").join(target());
    let from = env::var("ADOMVIK_LIB").map_or(built, PathBuf::from);
    println!("cargo:rustc-link-search=native={}", from.display());
    println!("cargo:rustc-link-lib=static=adomvik");
}
