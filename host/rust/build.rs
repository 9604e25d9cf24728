//! Finds the archives that `tools/build script` and `tools/build dates_host` write, or says which is missing.
//! They are looked for in the folder that the variable `CLOCK_STATICLIB` names (from the folder of this package, where that
//! is a relative path), and without it in `target/staticlib` of this repository.
use std::path::PathBuf;
use std::process::exit;

const FOLDER: &str = "CLOCK_STATICLIB";

/// The archives, by their names.
const ARCHIVES: [&str; 2] = ["script", "dates_host"];

fn folder() -> PathBuf {
    let package = PathBuf::from(std::env::var_os("CARGO_MANIFEST_DIR").expect("cargo sets it"));
    match std::env::var_os(FOLDER) {
        Some(named) => package.join(named),
        None => package.join("../../target/staticlib"),
    }
}

fn main() {
    let folder = folder();
    let archive = |name: &str| folder.join(format!("lib{name}.a"));
    let missing: Vec<&str> = ARCHIVES.into_iter().filter(|name| !archive(name).is_file()).collect();
    for name in &missing {
        eprintln!("{} is missing: `tools/build {name}` makes it", archive(name).display());
    }
    if !missing.is_empty() {
        eprintln!("`tools/build` writes to target/staticlib; for another folder, name it in {FOLDER}");
        exit(1);
    }
    println!("cargo:rerun-if-env-changed={FOLDER}");
    println!("cargo:rustc-link-search=native={}", folder.display());
    for name in ARCHIVES {
        println!("cargo:rerun-if-changed={}", archive(name).display());
        println!("cargo:rustc-link-lib=static={name}");
    }
}
