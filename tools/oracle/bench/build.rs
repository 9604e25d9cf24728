//! Links the archives that `tools/build` writes.
use std::path::PathBuf;

fn main() {
    let here = PathBuf::from(std::env::var("CARGO_MANIFEST_DIR").expect("cargo sets it"));
    let archives = here.join("../../../target/staticlib");
    println!("cargo:rustc-link-search=native={}", archives.display());
    for name in ["script", "script_digest", "dates_host"] {
        println!("cargo:rustc-link-lib=static={name}");
        println!("cargo:rerun-if-changed={}", archives.join(format!("lib{name}.a")).display());
    }
}
