//! Links the proved library that `examples/build` makes.

use std::path::PathBuf;

fn main() {
    let (folder, name) = library();
    let here = PathBuf::from(std::env::var_os("CARGO_MANIFEST_DIR").expect("cargo names the folder"));
    let folder = here.join("../../target").join(folder);
    let archive = folder.join(format!("lib{name}.a"));
    println!("cargo:rerun-if-changed={}", archive.display());
    if !archive.is_file() {
        eprintln!("the proved library is not built: there is no {}; run examples/build first", archive.display());
        std::process::exit(1);
    }
    println!("cargo:rustc-link-search=native={}", folder.display());
    println!("cargo:rustc-link-lib=static={name}");
}

/// Folder and name of the archive: as the toolchain writes it, for x86-64; elsewhere the name of one for the processor at hand, which today's
/// toolchain does not make.
fn library() -> (&'static str, &'static str) {
    let processor = std::env::var("CARGO_CFG_TARGET_ARCH").expect("cargo names the processor");
    if processor == "x86_64" {
        return ("staticlib", "trim_c");
    }
    ("native", "trim_native")
}
