//! Finds libbaxoodhiir.a, which `tests/archive` writes to target/staticlib at the repository's root.
//! BAXOODHIIR_LIB names another folder.
use std::path::PathBuf;

fn main() {
    println!("cargo:rerun-if-env-changed=BAXOODHIIR_LIB");
    let folder = match std::env::var_os("BAXOODHIIR_LIB") {
        Some(folder) => PathBuf::from(folder),
        None => PathBuf::from(std::env::var_os("CARGO_MANIFEST_DIR").unwrap()).join("../../target/staticlib"),
    };
    let archive = folder.join("libbaxoodhiir.a");
    println!("cargo:rerun-if-changed={}", archive.display());
    if !archive.exists() {
        panic!("{} is missing: run `tests/archive` at the repository's root", archive.display());
    }
    println!("cargo:rustc-link-search=native={}", folder.display());
    println!("cargo:rustc-link-lib=static=baxoodhiir");
}
