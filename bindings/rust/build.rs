//! Links libsumpheron.a, which bin/library writes to dist/lib; SUMPHERON_LIBRARY names another folder that has it.

use std::path::PathBuf;

fn main() {
    println!("cargo:rerun-if-env-changed=SUMPHERON_LIBRARY");
    let folder = match std::env::var_os("SUMPHERON_LIBRARY") {
        Some(folder) => PathBuf::from(folder),
        None => {
            PathBuf::from(std::env::var_os("CARGO_MANIFEST_DIR").unwrap()).join("../../dist/lib")
        }
    };
    let library = folder.join("libsumpheron.a");
    println!("cargo:rerun-if-changed={}", library.display());
    if !library.exists() {
        panic!("{} is missing: bin/library writes it", library.display());
    }
    println!("cargo:rustc-link-search=native={}", folder.display());
    println!("cargo:rustc-link-lib=static=sumpheron");
}
