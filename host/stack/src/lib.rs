//! The stack of the library and of a whole caller of it (document 02, W4): a boot stage has 1 KiB.
//!
//! | Module | What it tells |
//! |---|---|
//! | [`arrays`] | no function that the offered calls reach has an array, by the sources |
//! | [`tokens`], [`source`], [`tree`] | the sources, as far as that needs them |
//! | [`archive`] | the figures of the compiled archive: the stack of each exported call, and more |
//! | [`listing`], [`frames`] | the disassembled archive, and the bytes that each function takes |
//! | [`stage`] | a least caller of each call, its arguments and the library together |
//! | [`report`] | the figures as they stand in `include/mve.h` and `docs/PERFORMANCE.md` |
//!
//! `tests/` compares both documents with the figures. `stack` prints them.

pub mod archive;
pub mod arrays;
pub mod frames;
pub mod listing;
pub mod report;
pub mod source;
pub mod stage;
pub mod tokens;
pub mod tree;

use std::env;
use std::path::{Path, PathBuf};

/// The repository's folder.
pub fn root() -> PathBuf {
    Path::new(env!("CARGO_MANIFEST_DIR")).join("../..")
}

/// The archive: in the folder that MVE_LIB_DIR names, or else where the repository's build leaves
/// it.
pub fn archive_path() -> PathBuf {
    let folder = env::var_os("MVE_LIB_DIR").map(PathBuf::from);
    folder.unwrap_or_else(|| root().join("target/staticlib")).join("libmve.a")
}
