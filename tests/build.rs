//! Links libnutrameza.a: from the folder that NUTRAMEZA_LIB names, else from the repository's target/staticlib.

use std::path::PathBuf;

fn main() {
    let beside = PathBuf::from(env!("CARGO_MANIFEST_DIR")).join("../target/staticlib");
    let folder = std::env::var_os("NUTRAMEZA_LIB").map_or(beside, PathBuf::from);
    let archive = folder.join("libnutrameza.a");
    println!("cargo:rerun-if-env-changed=NUTRAMEZA_LIB");
    println!("cargo:rerun-if-changed={}", archive.display());
    if !archive.exists() {
        panic!("{} is missing: make it with `make lib`", archive.display());
    }
    println!("cargo:rustc-link-search=native={}", folder.display());
    println!("cargo:rustc-link-lib=static=nutrameza");
}
