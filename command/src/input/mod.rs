//! What films are made from: pictures, a sound, a trailer.

mod avi;
mod gif;
mod png;
mod riff;
mod wav;
mod y4m;

use crate::film::STANDARD;
use crate::messages::Failure;
use crate::output::Part;
pub use avi::{Avi, Item};
use std::cmp::Ordering;
use std::fs::{self, File};
use std::io::{self, IsTerminal, Read, Seek};
use std::path::{Path, PathBuf};
pub use wav::Pcm;

/// The largest picture of a film.
pub const WIDEST: usize = 640;
pub const HIGHEST: usize = 480;

/// A picture that was read.
#[derive(Clone, Debug, Default)]
pub struct Picture {
    pub width: usize,
    pub height: usize,
    /// Red, green and blue of each pixel, row by row, 0 to 63.
    pub pixels: Vec<[u8; 3]>,
    /// The microseconds that it stays, where its file tells them.
    pub interval: Option<u32>,
    /// Whether a colour was rounded to 6 bits a component.
    pub rounded: bool,
    /// Whether a pixel was transparent; it is shown on black.
    pub transparent: bool,
}

/// A file of pictures.
#[derive(Debug)]
enum Input {
    Png(PathBuf),
    Gif(PathBuf),
    /// With the name for messages.
    Y4m(PathBuf, File),
}

/// All files of pictures, in order.
#[derive(Debug)]
pub struct Inputs {
    files: Vec<Input>,
    /// What came by standard input, until all is done.
    _spool: Option<Part>,
}

impl Inputs {
    /// The files that were given, and the PNG pictures of folders. What comes by standard input is kept
    /// beside the target, since pictures are read twice.
    pub fn find(given: &[PathBuf], target: &Path) -> Result<Inputs, Failure> {
        let (mut files, mut spool) = (Vec::new(), None);
        for path in given {
            if path == Path::new(STANDARD) {
                let (part, file) = spooled(target)?;
                files.push(Input::Y4m(path.clone(), file));
                spool = Some(part);
            } else if path.is_dir() {
                files.extend(pictures_of(path)?.into_iter().map(Input::Png));
            } else {
                files.push(Input::of(path)?);
            }
        }
        Ok(Inputs { files, _spool: spool })
    }

    /// All files.
    pub fn paths(&self) -> impl Iterator<Item = &Path> {
        self.files.iter().map(Input::path)
    }

    /// Hands on every picture, with the file that it is from.
    pub fn each(
        &self,
        take: &mut dyn FnMut(&Path, Picture) -> Result<(), Failure>,
    ) -> Result<(), Failure> {
        for file in &self.files {
            match file {
                Input::Png(path) => take(path, png::read(path)?)?,
                Input::Gif(path) => gif::each(path, &mut |picture| take(path, picture))?,
                Input::Y4m(path, file) => {
                    y4m::each(path, file, &mut |picture| take(path, picture))?
                }
            }
        }
        Ok(())
    }
}

impl Input {
    fn path(&self) -> &Path {
        match self {
            Input::Png(path) | Input::Gif(path) | Input::Y4m(path, _) => path,
        }
    }

    /// By the file's first bytes.
    fn of(path: &Path) -> Result<Input, Failure> {
        let failed = |error| Failure::Read(path.into(), error);
        let mut file = File::open(path).map_err(failed)?;
        let mut front = Vec::new();
        file.by_ref().take(8).read_to_end(&mut front).map_err(failed)?;
        match &front[..] {
            b"\x89PNG\r\n\x1A\n" => Ok(Input::Png(path.into())),
            [b'G', b'I', b'F', ..] => Ok(Input::Gif(path.into())),
            b"YUV4MPEG" => Ok(Input::Y4m(path.into(), file)),
            _ => Err(Failure::input(path, "is no PNG, GIF or Y4M file")),
        }
    }
}

/// Sees to it that pictures are of a size that films have, before there is any memory for them.
fn check_size(path: &Path, width: usize, height: usize) -> Result<(), Failure> {
    match (1..=WIDEST).contains(&width) && (1..=HIGHEST).contains(&height) {
        true => Ok(()),
        false => Err(Failure::input(
            path,
            format!("is {width}x{height} pixels: a film has at most {WIDEST}x{HIGHEST}"),
        )),
    }
}

fn spooled(target: &Path) -> Result<(Part, File), Failure> {
    if io::stdin().is_terminal() {
        let message = "is a terminal: send Y4M to it (mve play old.mve -o - | mve make - ..)";
        return Err(Failure::input(Path::new(STANDARD), message));
    }
    let (part, mut file) = Part::file(target)?;
    let mut buffer = vec![0; 1 << 16];
    loop {
        let count =
            io::stdin().read(&mut buffer).map_err(|error| Failure::Read(STANDARD.into(), error))?;
        if count == 0 {
            return Ok((part, file));
        }
        let written = io::Write::write_all(&mut file, &buffer[..count]);
        written.map_err(|error| Failure::write(target, error))?;
    }
}

/// The PNG pictures of a folder by name, numbers in it by their value.
fn pictures_of(folder: &Path) -> Result<Vec<PathBuf>, Failure> {
    let failed = |error| Failure::Read(folder.into(), error);
    let mut found = Vec::new();
    for entry in fs::read_dir(folder).map_err(failed)? {
        let path = entry.map_err(failed)?.path();
        let ending = path.extension().unwrap_or_default();
        if ending.eq_ignore_ascii_case("png") && !path.is_dir() {
            found.push(path);
        }
    }
    if found.is_empty() {
        return Err(Failure::input(folder, "has no PNG picture"));
    }
    found.sort_by(|a, b| by_name(&file_name(a), &file_name(b)));
    Ok(found)
}

fn file_name(path: &Path) -> Vec<u8> {
    path.file_name().unwrap_or_default().as_encoded_bytes().to_vec()
}

/// The order of two names: 2 comes before 10. Names that differ by zeros in front alone are ordered
/// byte by byte.
fn by_name(one: &[u8], other: &[u8]) -> Ordering {
    let runs = |name: &'_ [u8]| -> Vec<(bool, usize, Vec<u8>)> {
        let runs = name.chunk_by(|a, b| a.is_ascii_digit() == b.is_ascii_digit());
        let key = |run: &[u8]| match run[0].is_ascii_digit() {
            true => {
                let zeros = run.iter().take_while(|&&digit| digit == b'0').count();
                (false, run.len() - zeros, run[zeros..].to_vec())
            }
            false => (true, 0, run.to_vec()),
        };
        runs.map(key).collect()
    };
    runs(one).cmp(&runs(other)).then_with(|| one.cmp(other))
}

/// A file from its first byte on.
fn rewound(mut file: &File) -> io::Result<&File> {
    file.rewind().map(|()| file)
}

#[cfg(test)]
mod tests {
    use super::*;

    #[test]
    fn order_of_names() {
        let names = ["1.png", "2.png", "10.png", "a", "a-1.png", "a-02.png", "a-2.png", "b"];
        let sorted = names.windows(2).all(|pair| {
            by_name(pair[0].as_bytes(), pair[1].as_bytes()) == Ordering::Less
                && by_name(pair[1].as_bytes(), pair[0].as_bytes()) == Ordering::Greater
        });
        assert!(sorted);
        assert_eq!(by_name(b"a1", b"a1"), Ordering::Equal);
    }

    #[test]
    fn sizes() {
        let path = Path::new("x.png");
        for (width, height) in [(1, 1), (640, 480)] {
            assert!(check_size(path, width, height).is_ok());
        }
        for (width, height) in [(0, 1), (1, 0), (641, 480), (640, 481)] {
            assert!(check_size(path, width, height).is_err());
        }
    }
}
