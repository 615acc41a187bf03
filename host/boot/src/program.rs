//! Builds the stage by its Makefile.

use std::env;
use std::path::{Path, PathBuf};
use std::process::Command;

/// The stage: the files for QEMU.
#[derive(Clone, Debug)]
pub struct Program {
    /// The program, as an ELF file.
    pub elf: PathBuf,
    /// The ROM that starts it.
    pub rom: PathBuf,
}

/// Builds the stage in this folder, with more flags for the compiler.
pub fn build(folder: &Path, flags: &[&str]) -> Program {
    let root = Path::new(env!("CARGO_MANIFEST_DIR")).join("../..");
    let mut make = Command::new("make");
    make.arg("-C").arg(root.join("examples/boot"));
    make.arg(format!("OUT={}", folder.display())).arg(format!("FLAGS={}", flags.join(" ")));
    if let Some(library) = env::var_os("MVE_LIB_DIR") {
        make.arg(format!("MVE_LIB_DIR={}", Path::new(&library).display()));
    }
    // make's own variables, where make runs the tests
    make.env_remove("MAKEFLAGS").env_remove("MAKELEVEL").env_remove("MFLAGS");
    let built = make.output().expect("make runs");
    assert!(built.status.success(), "{}", String::from_utf8_lossy(&built.stderr));
    Program { elf: folder.join("boot.elf"), rom: folder.join("reset.rom") }
}
