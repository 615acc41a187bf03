//! What a film is played to.

mod gif;
mod overwrite;
mod part;
mod png;
mod wav;
mod y4m;

use crate::messages::Failure;
use crate::walk::Picture;
pub use overwrite::Overwrite;
pub use part::Part;
pub use png::write_canvas as write_png;
use std::ffi::OsStr;
use std::io::{self, IsTerminal};
use std::path::PathBuf;
pub use wav::{Cut, Wav};

/// Where pictures go, by the ending of a name.
#[derive(Clone, Debug, PartialEq, Eq)]
pub enum Output {
    /// A PNG file each, in a folder.
    Folder(PathBuf),
    Gif(PathBuf),
    Y4m(PathBuf),
    /// Y4M on standard output.
    Standard,
}

/// A receiver of pictures.
pub trait Pictures {
    /// Takes a picture with its number in the film and the microseconds that it stays.
    fn add(&mut self, number: usize, picture: &Picture<'_>, interval: u32) -> Result<(), Failure>;

    /// Completes what was written; what is to be kept of it.
    fn finish(self: Box<Self>) -> Result<Finished, Failure>;
}

/// What a receiver leaves.
#[derive(Debug, Default)]
pub struct Finished {
    pub parts: Vec<Part>,
    /// What its user should know.
    pub note: Option<String>,
}

impl Output {
    /// By the name that was given.
    pub fn of(name: &OsStr) -> Result<Output, String> {
        let path = PathBuf::from(name);
        let ending = path.extension().map(|ending| ending.to_string_lossy().to_lowercase());
        let is_folder = name.as_encoded_bytes().ends_with(b"/") || path.is_dir();
        match ending.as_deref() {
            _ if name.is_empty() => Err("give a name".into()),
            _ if name == "-" => Ok(Output::Standard),
            _ if is_folder => Ok(Output::Folder(path)),
            None => Ok(Output::Folder(path)),
            Some("gif") => Ok(Output::Gif(path)),
            Some("y4m") => Ok(Output::Y4m(path)),
            Some("png") => {
                Err("PNG pictures go to a folder: give its name, with / at the end".into())
            }
            Some(_) => Err("give a name that ends in .gif, .y4m or /, or give -".into()),
        }
    }

    /// Sees to it that nothing is overwritten that must not be, before there is anything to write.
    pub fn check(&self, overwrite: &Overwrite) -> Result<(), Failure> {
        match self {
            Output::Folder(path) if path.is_dir() && !overwrite.force => png::check(path),
            Output::Folder(path) if path.is_file() => Err(Failure::IsFile(path.into())),
            Output::Gif(path) | Output::Y4m(path) => overwrite.check(path),
            Output::Standard if io::stdout().is_terminal() => Err(Failure::Terminal("Y4M")),
            _ => Ok(()),
        }
    }

    /// A receiver of pictures.
    pub fn begin(&self) -> Result<Box<dyn Pictures>, Failure> {
        Ok(match self {
            Output::Folder(path) => Box::new(png::Png::begin(path)?),
            Output::Gif(path) => Box::new(gif::Gif::begin(path)?),
            Output::Y4m(path) => Box::new(y4m::Y4m::begin(path)?),
            Output::Standard => Box::new(y4m::Y4m::standard()),
        })
    }
}
