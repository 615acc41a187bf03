//! What the command says where it fails: what is wrong, with which file, what to do; and its exit
//! statuses.

use crate::film::STANDARD;
use crate::refusals::Refused;
use mve::Error;
use std::fmt;
use std::io::{self, ErrorKind};
use std::path::{Path, PathBuf};

/// The exit status where a film is refused, or does not have what is asked for.
pub const REFUSED: u8 = 1;
/// The exit status of wrong use, and where a file cannot be read or written.
pub const FAILED: u8 = 2;
/// As of a program that the signal for a closed pipe has ended, which says nothing.
const CLOSED: u8 = 141;

/// Why the command fails.
#[derive(Debug)]
pub enum Failure {
    Read(PathBuf, io::Error),
    Write(PathBuf, io::Error),
    /// A file that may not be overwritten.
    Exists(PathBuf),
    /// The film itself, which is never overwritten.
    IsInput(PathBuf),
    /// A file that a film is made from, likewise.
    IsSource(PathBuf),
    /// Sound of several formats, which one WAV file cannot hold.
    ManyFormats,
    /// A folder in place of a file.
    IsFolder(PathBuf),
    /// A file in place of a folder.
    IsFile(PathBuf),
    /// A folder that has numbered pictures.
    HasPictures(PathBuf),
    /// What is not for eyes: Y4M or WAV.
    Terminal(&'static str),
    /// Pictures and sound cannot both go to standard output.
    BothStandard,
    /// A file that is no film, so that there is nothing to save.
    NoFilm(PathBuf, Refused),
    /// A film that is not to be stripped, since it is scratched or none.
    Scratched(PathBuf, Refused),
    /// A film that is refused, and what becomes of its pictures.
    Refused(PathBuf, Refused, Kept),
    /// A film that sends too few pictures: so many.
    NoPicture(PathBuf, usize),
    /// A film that does not send the picture that is asked for: it sends so many.
    NotSent(PathBuf, usize),
    /// A film with true colour, where an 8-bit one is needed by this subcommand.
    TrueColour(PathBuf, &'static str),
    /// A position outside the film's pictures, which are so wide and high.
    Outside(PathBuf, u16, u16),
    /// A film without sound in the stream, and the streams that it has.
    NoSound(PathBuf, usize, Vec<usize>),
    /// More than a WAV file can hold.
    SoundTooLong(PathBuf),
    /// Something that is read, and what is wrong with it, in words.
    Input(PathBuf, String),
    /// There is nothing to make a film from.
    NoPictures,
    /// Pictures of which one, by its number, is too large for a film.
    TooLarge(PathBuf, usize),
    /// Nobody reads standard output any longer.
    Closed,
}

/// What becomes of the pictures before a refusal.
#[derive(Clone, Copy, Debug, PartialEq, Eq)]
pub enum Kept {
    /// They are not kept.
    Nothing,
    /// There is neither a picture nor sound that is wanted.
    NothingBefore,
    /// There is none that is wanted.
    NoPicture,
    /// So many are written.
    Pictures(usize),
    /// Nothing was to be written; so many were sent before.
    OnlyBefore(usize),
}

impl Kept {
    pub fn pictures(count: usize) -> Kept {
        if count == 0 {
            Kept::NoPicture
        } else {
            Kept::Pictures(count)
        }
    }
}

impl Failure {
    /// Something is wrong with what is read.
    pub fn input(path: &Path, words: impl Into<String>) -> Failure {
        Failure::Input(path.into(), words.into())
    }

    /// A write that failed.
    pub fn write(path: &Path, error: io::Error) -> Failure {
        Failure::Write(path.into(), error)
    }

    /// A write to standard output that failed.
    pub fn standard_output(error: io::Error) -> Failure {
        match error.kind() {
            ErrorKind::BrokenPipe => Failure::Closed,
            _ => Failure::Write("standard output".into(), error),
        }
    }

    pub fn status(&self) -> u8 {
        match self {
            Failure::Refused(..)
            | Failure::Scratched(..)
            | Failure::NoPicture(..)
            | Failure::NotSent(..)
            | Failure::NoSound(..)
            | Failure::TooLarge(..) => REFUSED,
            Failure::Closed => CLOSED,
            _ => FAILED,
        }
    }
}

impl fmt::Display for Failure {
    fn fmt(&self, f: &mut fmt::Formatter<'_>) -> fmt::Result {
        match self {
            Failure::Read(path, error) => {
                write!(f, "{}: cannot be read: {}", name(path), why(error))
            }
            Failure::Write(path, error) => {
                write!(f, "{}: cannot be written: {}", name(path), why(error))
            }
            Failure::Exists(path) => {
                write!(f, "{}: exists already: give another name, or --force", name(path))
            }
            Failure::IsInput(path) => {
                write!(f, "{}: is the film itself: give another name", name(path))
            }
            Failure::IsSource(path) => {
                write!(f, "{}: is read for the film: give another name", name(path))
            }
            Failure::NoFilm(path, refused) => {
                write!(f, "{}: {refused} Nothing is written.", name(path))
            }
            Failure::Scratched(path, refused) => {
                let saves = match refused.error {
                    Error::Header => ".",
                    _ => "; mve salvage saves what is left of it.",
                };
                write!(f, "{}: {refused} Nothing is written{saves}", name(path))
            }
            Failure::IsFolder(path) => write!(f, "{}: is a folder: give another name", name(path)),
            Failure::IsFile(path) => write!(f, "{}: is no folder: give another name", name(path)),
            Failure::HasPictures(path) => {
                let path = name(path);
                write!(f, "{path}: has numbered pictures already: give another folder, or --force")
            }
            Failure::Terminal(what) => {
                write!(
                    f,
                    "{what} is not for a terminal: send it to a player (| ffplay -) or a file"
                )
            }
            Failure::BothStandard => {
                write!(
                    f,
                    "standard output takes pictures or sound, not both: give one of them a name"
                )
            }
            Failure::ManyFormats => {
                write!(f, "the sound changes its format, and standard output takes one: give --sound a name")
            }
            Failure::Refused(path, refused, kept) => write!(f, "{}: {refused} {kept}", name(path)),
            Failure::NoPicture(path, 0) | Failure::NotSent(path, 0) => {
                write!(f, "{}: the film sends no picture", name(path))
            }
            Failure::NoPicture(path, count) => {
                let (path, last) = (name(path), count - 1);
                write!(f, "{path}: the film sends pictures 0 to {last} only: give a lower --from")
            }
            Failure::NotSent(path, 1) => {
                write!(f, "{}: the film sends picture 0 only: give 0", name(path))
            }
            Failure::NotSent(path, count) => {
                let (path, last) = (name(path), count - 1);
                write!(f, "{path}: the film sends pictures 0 to {last} only: give one of these")
            }
            Failure::TrueColour(path, subcommand) => {
                let path = name(path);
                write!(f, "{path}: has true colour, and mve {subcommand} is for 8-bit films: ")?;
                write!(f, "mve play shows its pictures")
            }
            Failure::Outside(path, width, height) => {
                let (path, right, bottom) = (name(path), width - 1, height - 1);
                write!(
                    f,
                    "{path}: the pictures are {width}x{height}: give X from 0 to {right} and "
                )?;
                write!(f, "Y from 0 to {bottom}")
            }
            Failure::NoSound(path, stream, others) => no_sound(f, path, *stream, others),
            Failure::SoundTooLong(path) => {
                let path = name(path);
                write!(
                    f,
                    "{path}: the sound is too long for a WAV file: choose a part by --pictures"
                )
            }
            Failure::Input(path, words) => write!(f, "{}: {words}", name(path)),
            Failure::NoPictures => write!(f, "there is no picture to make a film from"),
            Failure::TooLarge(path, number) => {
                let path = name(path);
                write!(
                    f,
                    "{path}: picture {number} is too large for a film (refusal 23): give smaller "
                )?;
                write!(f, "pictures, or pictures of larger areas of one colour")
            }
            Failure::Closed => Ok(()),
        }
    }
}

fn no_sound(
    f: &mut fmt::Formatter<'_>,
    path: &Path,
    stream: usize,
    others: &[usize],
) -> fmt::Result {
    let path = name(path);
    if others.is_empty() {
        return write!(f, "{path}: the film has no sound: leave --sound out");
    }
    let others: Vec<_> = others.iter().map(usize::to_string).collect();
    let others = others.join(", ");
    write!(f, "{path}: no sound in stream {stream}: give --stream one of {others}")
}

impl fmt::Display for Kept {
    fn fmt(&self, f: &mut fmt::Formatter<'_>) -> fmt::Result {
        match self {
            Kept::Nothing => write!(f, "Nothing is written; --partial keeps what comes before it."),
            Kept::NothingBefore => write!(f, "Nothing comes before it."),
            Kept::NoPicture => write!(f, "No picture is written."),
            Kept::OnlyBefore(0) => write!(f, "No picture comes before it."),
            Kept::OnlyBefore(1) => write!(f, "Picture 0 comes before it."),
            Kept::OnlyBefore(count) => write!(f, "Pictures 0 to {} come before it.", count - 1),
            Kept::Pictures(1) => write!(f, "The picture before it is written."),
            Kept::Pictures(count) => write!(f, "The {count} pictures before it are written."),
        }
    }
}

/// A path for a message or a table: on one line, and without any sequence that steers a terminal.
pub fn name(path: &Path) -> String {
    if path == Path::new(STANDARD) {
        return "standard input".into();
    }
    path.to_string_lossy().replace(char::is_control, "\u{FFFD}")
}

/// What the system says of an error, without its number.
pub fn why(error: &io::Error) -> String {
    let text = error.to_string();
    text.split(" (os error").next().unwrap_or_default().into()
}

#[cfg(test)]
mod tests {
    use super::*;

    #[test]
    fn names() {
        assert_eq!(name(Path::new("a b/é\n\u{1b}[2J.mve")), "a b/é\u{FFFD}\u{FFFD}[2J.mve");
    }

    #[test]
    fn errors() {
        assert_eq!(why(&io::Error::from_raw_os_error(2)), "No such file or directory");
        assert_eq!(why(&io::Error::other("a (b) c")), "a (b) c");
    }
}
