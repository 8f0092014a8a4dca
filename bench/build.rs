//! Links the proved library that `bin/library` makes for this machine.

use std::path::PathBuf;

fn main() {
    let folder = PathBuf::from(std::env::var_os("CARGO_MANIFEST_DIR").expect("cargo names the folder")).join("../target/native");
    println!("cargo:rerun-if-changed={}", folder.join("libtrim_native.a").display());
    println!("cargo:rustc-link-search=native={}", folder.display());
    println!("cargo:rustc-link-lib=static=trim_native");
}
