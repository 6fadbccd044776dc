//! Finds the proved library, which `boundary/library` writes, and links it.
use std::env::var;
use std::path::PathBuf;
use std::process::exit;

fn main() {
    println!("cargo:rerun-if-env-changed=TRAVELRING_LIB");
    let usual = || PathBuf::from(var("CARGO_MANIFEST_DIR").unwrap()).join("../../target/library");
    let folder = var("TRAVELRING_LIB").map_or_else(|_| usual(), PathBuf::from);
    let library = folder.join("libboundary.a");
    println!("cargo:rerun-if-changed={}", library.display());
    if !library.exists() {
        eprintln!("There is no {}.", library.display());
        eprintln!("Run `boundary/library` at the repository's root, or set TRAVELRING_LIB to the folder that has libboundary.a.");
        exit(1);
    }
    println!("cargo:rustc-link-search=native={}", folder.display());
    println!("cargo:rustc-link-lib=static=boundary");
}
