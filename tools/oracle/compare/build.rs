//! Links the archive that `tools/build script` writes.
use std::path::PathBuf;

fn main() {
    let here = PathBuf::from(std::env::var("CARGO_MANIFEST_DIR").expect("cargo sets it"));
    let archive = here.join("../../../target/staticlib");
    println!("cargo:rustc-link-search=native={}", archive.display());
    println!("cargo:rustc-link-lib=static=script");
    println!("cargo:rerun-if-changed={}", archive.join("libscript.a").display());
}
