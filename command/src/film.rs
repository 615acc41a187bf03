//! Reading a film: its header is judged before the rest is read.

use crate::messages::{Failure, Kept};
use crate::refusals::Refused;
use mve::Refusal;
use std::fs::File;
use std::io::{self, Read};
use std::path::Path;

/// The name that stands for standard input, and for standard output.
pub const STANDARD: &str = "-";
/// The bytes of a film's header.
const HEADER: u64 = 26;

/// A film that was not read.
#[derive(Debug)]
pub enum Unread {
    Failed(io::Error),
    /// The header is refused. With the length of the file.
    Refused(Refusal, u64),
}

impl Unread {
    /// What to say of it, where one film is looked into.
    pub fn failure(self, path: &Path) -> Failure {
        match self {
            Unread::Failed(error) => Failure::Read(path.into(), error),
            Unread::Refused(refusal, _) => {
                Failure::Refused(path.into(), Refused::at_header(refusal), Kept::OnlyBefore(0))
            }
        }
    }
}

impl From<io::Error> for Unread {
    fn from(error: io::Error) -> Unread {
        Unread::Failed(error)
    }
}

/// Reads a film whose header is right, also from standard input.
pub fn read(path: &Path) -> Result<Vec<u8>, Unread> {
    if path == Path::new(STANDARD) {
        return read_from(io::stdin().lock(), 0);
    }
    let file = File::open(path)?;
    let length = file.metadata()?.len();
    read_from(file, length)
}

/// The length is told of a file whose header is wrong, or else how much of it was read.
fn read_from(mut file: impl Read, length: u64) -> Result<Vec<u8>, Unread> {
    let mut film = Vec::new();
    file.by_ref().take(HEADER).read_to_end(&mut film)?;
    let length = length.max(film.len() as u64);
    mve::open(&film, mve::NO_STREAM).map_err(|refusal| Unread::Refused(refusal, length))?;
    file.read_to_end(&mut film)?;
    Ok(film)
}
