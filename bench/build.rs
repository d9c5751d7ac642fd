//! Compiles c/plain.c by the machine's C compiler (CC, else cc) at -O2.

use std::path::PathBuf;
use std::process::Command;

fn run(program: &str, arguments: &[&str]) {
    let status = Command::new(program).args(arguments).status().unwrap_or_else(|error| panic!("{program}: {error}"));
    assert!(status.success(), "{program} {arguments:?}: {status}");
}

fn main() {
    println!("cargo:rerun-if-changed=c/plain.c");
    println!("cargo:rerun-if-env-changed=CC");
    let out = PathBuf::from(std::env::var_os("OUT_DIR").expect("cargo names a folder"));
    let (object, archive) = (out.join("plain.o"), out.join("libplain_c.a"));
    let (object, archive) = (object.to_str().expect("a path in UTF-8"), archive.to_str().expect("a path in UTF-8"));
    let compiler = std::env::var("CC").unwrap_or_else(|_| "cc".to_string());
    run(&compiler, &["-std=c99", "-O2", "-Wall", "-Wextra", "-c", "c/plain.c", "-o", object]);
    run("ar", &["rcs", archive, object]);
    println!("cargo:rustc-link-search=native={}", out.display());
    println!("cargo:rustc-link-lib=static=plain_c");
}
