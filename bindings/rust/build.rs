//! Links liblekhyundo.a, which `tools/library` writes; LEKHYUNDO_LIB names another folder that holds it.

use std::path::PathBuf;

fn main() {
    println!("cargo::rerun-if-env-changed=LEKHYUNDO_LIB");
    let here = PathBuf::from(std::env::var_os("CARGO_MANIFEST_DIR").expect("cargo sets it"));
    let folder = std::env::var_os("LEKHYUNDO_LIB").map_or(here.join("../../target/staticlib"), PathBuf::from);
    let archive = folder.join("liblekhyundo.a");
    assert!(archive.is_file(), "no {}: run `tools/library` in the repository", archive.display());
    println!("cargo::rustc-link-search=native={}", folder.display());
    println!("cargo::rustc-link-lib=static=lekhyundo");
    println!("cargo::rerun-if-changed={}", archive.display());
}
