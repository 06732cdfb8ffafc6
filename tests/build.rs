//! Tells the linker where libquebralua.a is: the directory QUEBRALUA_LIB, or the one that `tools/staticlib` writes to.

use std::env;
use std::path::PathBuf;

fn main() {
    let package = PathBuf::from(env::var("CARGO_MANIFEST_DIR").expect("cargo sets CARGO_MANIFEST_DIR"));
    let directory = match env::var_os("QUEBRALUA_LIB") {
        Some(given) => PathBuf::from(given),
        None => package.join("../target/staticlib"),
    };
    println!("cargo:rerun-if-env-changed=QUEBRALUA_LIB");
    println!("cargo:rerun-if-changed={}", directory.join("libquebralua.a").display());
    println!("cargo:rustc-link-search=native={}", directory.display());
}
