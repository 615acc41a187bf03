//! Finds the version of the library's interface, which the command tells by --version.

use std::{env, fs};

const HEADER: &str = "../include/mve.h";

fn main() {
    println!("cargo::rerun-if-changed={HEADER}");
    let header = fs::read_to_string(HEADER).unwrap_or_default();
    match header.lines().find_map(|line| line.strip_prefix("#define MVE_VERSION ")) {
        Some(version) => println!("cargo::rustc-env=MVE_VERSION={}", version.trim()),
        None => {
            let folder = env::current_dir().unwrap_or_default();
            println!("cargo::error={}/{HEADER} has no MVE_VERSION", folder.display());
        }
    }
}
