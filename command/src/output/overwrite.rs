//! What may be overwritten: nothing without --force, and never a file that is read.

use crate::film::STANDARD;
use crate::messages::Failure;
use std::fs::{self, Metadata};
use std::os::unix::fs::MetadataExt;
use std::path::{Path, PathBuf};

/// What may be.
#[derive(Clone, Debug)]
pub struct Overwrite {
    /// Other files than those that are read.
    pub force: bool,
    /// Those, whatever their names.
    read: Vec<Identity>,
    /// What is said where one of them would be.
    failure: fn(PathBuf) -> Failure,
}

/// What a file has under all its names.
#[derive(Clone, Copy, Debug, PartialEq, Eq)]
struct Identity {
    device: u64,
    number: u64,
}

impl Identity {
    fn of(found: &Metadata) -> Identity {
        Identity { device: found.dev(), number: found.ino() }
    }
}

impl Overwrite {
    /// Where this film is read.
    pub fn new(film: &Path, force: bool) -> Overwrite {
        Overwrite { failure: Failure::IsInput, ..Overwrite::for_film([film], force) }
    }

    /// Where a film is made from these files. One that is not there is no file.
    pub fn for_film<'a>(read: impl IntoIterator<Item = &'a Path>, force: bool) -> Overwrite {
        let place = |path| if path == Path::new(STANDARD) { Path::new("/dev/stdin") } else { path };
        let found = read.into_iter().filter_map(|path| fs::metadata(place(path)).ok());
        let read = found.map(|found| Identity::of(&found)).collect();
        Overwrite { force, read, failure: Failure::IsSource }
    }

    /// Sees to it that there is no such file, unless it may be overwritten, and no such folder.
    pub fn check(&self, path: &Path) -> Result<(), Failure> {
        let is_read =
            || fs::metadata(path).is_ok_and(|found| self.read.contains(&Identity::of(&found)));
        match path.symlink_metadata() {
            Ok(found) if found.is_dir() => Err(Failure::IsFolder(path.into())),
            Ok(_) if is_read() => Err((self.failure)(path.into())),
            Ok(_) if !self.force => Err(Failure::Exists(path.into())),
            _ => Ok(()),
        }
    }
}
