//! Links the static library `liblanhduxe.a`. Its folder is `LANHDUXE_LIB_DIR`, or
//! `../crates/lanhduxe/out` beside this package when the variable is not set.

use std::env;
use std::path::{Path, PathBuf};

fn main() {
    println!("cargo:rerun-if-env-changed=LANHDUXE_LIB_DIR");
    println!("cargo:rerun-if-changed=build.rs");
    let manifest = env::var_os("CARGO_MANIFEST_DIR").expect("cargo sets CARGO_MANIFEST_DIR");
    let folder = match env::var_os("LANHDUXE_LIB_DIR") {
        Some(folder) => Path::new(&manifest).join(folder),
        None => PathBuf::from(manifest).join("../crates/lanhduxe/out"),
    };
    let archive = folder.join("liblanhduxe.a");
    println!("cargo:rerun-if-changed={}", archive.display());
    if !archive.is_file() {
        panic!(
            "{} is missing: build the static library first, or set LANHDUXE_LIB_DIR to its folder",
            archive.display()
        );
    }
    println!("cargo:rustc-link-search=native={}", folder.display());
    println!("cargo:rustc-link-lib=static=lanhduxe");
}
