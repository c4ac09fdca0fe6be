//! Links libkovrelna.a from KOVRELNA_LIB_DIR, an absolute path, or from target/staticlib at the repository's root.
use std::{env, path::PathBuf};

fn main() {
    println!("cargo:rerun-if-env-changed=KOVRELNA_LIB_DIR");
    let package = PathBuf::from(env::var_os("CARGO_MANIFEST_DIR").unwrap());
    let named = env::var_os("KOVRELNA_LIB_DIR").filter(|directory| !directory.is_empty());
    let directory = match named {
        Some(directory) => PathBuf::from(directory),
        None => package.join("../../target/staticlib"),
    };
    let archive = directory.join("libkovrelna.a");
    println!("cargo:rerun-if-changed={}", archive.display());
    let archive = archive.canonicalize().unwrap_or_else(|error| {
        panic!(
            "{}: {error}. Build the library with `make lib`, or set KOVRELNA_LIB_DIR \
             to the directory of libkovrelna.a, as an absolute path",
            archive.display()
        )
    });
    println!(
        "cargo:rustc-link-search=native={}",
        archive.parent().unwrap().display()
    );
    println!("cargo:rustc-link-lib=static=kovrelna");
}
