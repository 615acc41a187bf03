//! Links the proved library, libmve.a: from the folder that MVE_LIB_DIR names, or else from where
//! the repository's build leaves it.

use std::env;
use std::path::PathBuf;

fn main() {
    println!("cargo::rerun-if-env-changed=MVE_LIB_DIR");
    let folder = library_folder();
    let library = folder.join("libmve.a");
    println!("cargo::rerun-if-changed={}", library.display());
    if !library.is_file() {
        println!(
            "cargo::error=the proved library is not at {}: in the repository's folder, \
             run: make library",
            library.display()
        );
        return;
    }
    println!("cargo::rustc-link-search=native={}", folder.display());
    println!("cargo::rustc-link-lib=static=mve");
}

fn library_folder() -> PathBuf {
    match env::var_os("MVE_LIB_DIR") {
        Some(folder) => PathBuf::from(folder),
        None => {
            let manifest = env::var_os("CARGO_MANIFEST_DIR").expect("cargo runs build scripts");
            PathBuf::from(manifest).join("../../target/staticlib")
        }
    }
}
