// Tells cargo where the proved library stands: target/staticlib of the repository, or the folder
// that DREVALOCI_LIB names.

use std::path::{Path, PathBuf};

fn main() {
    println!("cargo:rerun-if-env-changed=DREVALOCI_LIB");
    let here = PathBuf::from(std::env::var("CARGO_MANIFEST_DIR").unwrap());
    let folder = match std::env::var("DREVALOCI_LIB") {
        Ok(named) => PathBuf::from(named),
        Err(_) => here.join("../../target/staticlib"),
    };
    let archive = folder.join("libexports.a");
    if !Path::new(&archive).exists() {
        panic!("{} is not there: make it with bindings/library.sh", archive.display());
    }
    println!("cargo:rerun-if-changed={}", archive.display());
    println!("cargo:rustc-link-search=native={}", folder.display());
    println!("cargo:rustc-link-lib=static=exports");
}
