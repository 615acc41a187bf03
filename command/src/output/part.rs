//! Files and folders that have a temporary name until they are complete.

use super::Overwrite;
use crate::messages::Failure;
use crate::signals::{self, Held};
use std::ffi::OsString;
use std::fs::{self, DirBuilder, File};
use std::io::{self, ErrorKind, Write};
use std::path::{Path, PathBuf};
use std::process;

/// A file or folder that is being written. It is removed unless it is kept, also by a signal.
#[derive(Debug)]
pub struct Part {
    temporary: PathBuf,
    /// Where it is to be.
    pub target: PathBuf,
    /// Whether its files go into a folder that is there already.
    joins: bool,
}

impl Part {
    /// A new file, which is to be at the target.
    pub fn file(target: &Path) -> Result<(Part, File), Failure> {
        let made =
            made(&beside(target), new_file).map_err(|error| Failure::write(target, error))?;
        let (temporary, file) = made;
        Ok((Part { temporary, target: target.into(), joins: false }, file))
    }

    /// A whole file at the target.
    pub fn whole(target: &Path, bytes: &[u8], overwrite: &Overwrite) -> Result<(), Failure> {
        let (part, mut file) = Part::file(target)?;
        file.write_all(bytes).map_err(|error| Failure::write(target, error))?;
        drop(file);
        part.keep(overwrite)
    }

    /// A new folder, which is to be at the target, or whose files are to be there.
    pub fn folder(target: &Path) -> Result<Part, Failure> {
        let joins = target.is_dir();
        let like = if joins { target.join(".mve") } else { beside(target) };
        let made = made(&like, |path| DirBuilder::new().create(path));
        let (temporary, ()) = made.map_err(|error| Failure::write(target, error))?;
        Ok(Part { temporary, target: target.into(), joins })
    }

    /// A new file in a folder.
    pub fn inside(&self, name: &str) -> io::Result<File> {
        let _held = signals::hold(); // a folder that is being removed gets no file
        new_file(&self.temporary.join(name))
    }

    /// Of a file: sends what is in it, and keeps nothing.
    pub fn send(&self, mut to: impl Write) -> io::Result<()> {
        io::copy(&mut File::open(&self.temporary)?, &mut to)?;
        to.flush()
    }

    /// Gives it its own name, unless something may not be overwritten.
    pub fn keep(self, overwrite: &Overwrite) -> Result<(), Failure> {
        let held = signals::hold();
        if !self.joins {
            return keep(&held, &self.temporary, &self.target, overwrite);
        }
        let failed = |error| Failure::write(&self.target, error);
        for entry in fs::read_dir(&self.temporary).map_err(failed)? {
            let entry = entry.map_err(failed)?;
            keep(&held, &entry.path(), &self.target.join(entry.file_name()), overwrite)?;
        }
        Ok(())
    }
}

impl Drop for Part {
    fn drop(&mut self) {
        signals::hold().remove(&self.temporary);
    }
}

fn keep(_: &Held, temporary: &Path, target: &Path, overwrite: &Overwrite) -> Result<(), Failure> {
    overwrite.check(target)?;
    fs::rename(temporary, target).map_err(|error| Failure::write(target, error))
}

fn new_file(path: &Path) -> io::Result<File> {
    File::options().read(true).write(true).create_new(true).open(path)
}

/// A hidden name in the folder of the target.
fn beside(target: &Path) -> PathBuf {
    let mut hidden = OsString::from(".");
    hidden.push(target.file_name().unwrap_or_default());
    target.with_file_name(hidden)
}

/// Makes something under a name like this one that nothing has.
fn made<T>(like: &Path, make: impl Fn(&Path) -> io::Result<T>) -> io::Result<(PathBuf, T)> {
    let mut number = 0;
    loop {
        let mut path = OsString::from(like);
        path.push(format!(".{}-{number}.part", process::id()));
        let path = PathBuf::from(path);
        let mut held = signals::hold();
        match make(&path) {
            Err(error) if error.kind() == ErrorKind::AlreadyExists => number += 1,
            Err(error) => return Err(error),
            Ok(made) => {
                held.add(&path);
                return Ok((path, made));
            }
        }
    }
}
