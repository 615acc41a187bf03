//! AVI files with pictures of 8-bit Microsoft Video 1.

use super::riff::{double, word, Chunk, Riff, Unread};
use super::wav::{format_of, whole, Pcm, Unfit};
use super::{HIGHEST, WIDEST};
use crate::clock::LONGEST;
use crate::messages::Failure;
use crate::sound::Format;
use std::path::{Path, PathBuf};

/// Names of the codec.
const VIDEO_1: [&[u8; 4]; 3] = [b"CRAM", b"MSVC", b"WHAM"];
/// Bytes of the header of a picture's format. Its palette follows.
const BITMAP_HEADER: usize = 40;

/// 256 colours: red, green and blue, 0 to 255.
pub type Palette = [[u8; 3]; 256];

/// A file of which the headers and the places of all chunks are read.
#[derive(Debug)]
pub struct Avi {
    path: PathBuf,
    riff: Riff,
    pub width: usize,
    pub height: usize,
    /// The microseconds of a picture.
    pub interval: u32,
    /// At first.
    palette: Box<Palette>,
    /// How many pictures there are.
    pub frames: usize,
    /// The format of the sound, where there is one.
    pub format: Option<Result<Format, Unfit>>,
    /// How many sounds there are; the first is read.
    pub sounds: usize,
    /// What is read, in the order of the file.
    chunks: Vec<(Kind, Chunk)>,
}

/// What a chunk has.
#[derive(Clone, Copy, Debug, PartialEq, Eq)]
enum Kind {
    Frame,
    Colours,
    Sound,
}

/// A frame with the colours that it is shown in.
pub struct Item<'a> {
    pub palette: &'a Palette,
    pub data: Vec<u8>,
}

/// Why a file is not taken.
enum Untaken {
    Unread(Unread),
    /// In words.
    Wrong(String),
}

impl<T: Into<Unread>> From<T> for Untaken {
    fn from(unread: T) -> Untaken {
        Untaken::Unread(unread.into())
    }
}

fn wrong<T>(words: impl Into<String>) -> Result<T, Untaken> {
    Err(Untaken::Wrong(words.into()))
}

/// What is told of a stream.
struct Stream {
    /// Its type and its rate.
    header: Vec<u8>,
    /// As its type has it.
    format: Vec<u8>,
}

impl Avi {
    pub fn open(path: &Path) -> Result<Avi, Failure> {
        Avi::read(path).map_err(|untaken| failure(path, untaken))
    }

    fn read(path: &Path) -> Result<Avi, Untaken> {
        let mut riff = Riff::open(path)?;
        let (headers, movies) = lists(&mut riff)?;
        let streams = streams(&mut riff, &headers)?;
        let number = |kind: &[u8; 4]| streams.iter().position(|stream| stream.is(kind));
        let Some(pictures) = number(b"vids") else { return wrong("has no pictures") };
        let Stream { header, format } = &streams[pictures];
        let (width, height) = size(format)?;
        let main = headers.iter().find(|chunk| &chunk.name == b"avih");
        let main = main.map(|chunk| riff.content(chunk)).transpose()?;
        let interval = interval(header, &main.unwrap_or_default())?;
        let sound = number(b"auds");
        let mut chunks = Vec::new();
        for movie in &movies {
            chunks.extend(find(&mut riff, movie, pictures, sound)?);
        }
        let frames = chunks.iter().filter(|(kind, _)| *kind == Kind::Frame).count();
        if frames == 0 {
            return wrong("has no pictures");
        }
        Ok(Avi {
            path: path.into(),
            riff,
            width,
            height,
            interval,
            palette: palette(format),
            frames,
            format: sound.map(|number| format_of(&streams[number].format)),
            sounds: streams.iter().filter(|stream| stream.is(b"auds")).count(),
            chunks,
        })
    }

    /// All of the sound.
    pub fn sound(&mut self, format: Format) -> Result<Pcm, Failure> {
        let mut samples = Vec::new();
        for (_, chunk) in self.chunks.iter().filter(|(kind, _)| *kind == Kind::Sound) {
            let content = self.riff.content(chunk);
            samples.extend(content.map_err(|error| Failure::Read(self.path.clone(), error))?);
        }
        Ok(Pcm { format, samples: whole(samples, &format) })
    }

    /// Hands on every frame.
    pub fn each(
        mut self,
        take: &mut dyn FnMut(Item<'_>) -> Result<(), Failure>,
    ) -> Result<(), Failure> {
        let mut palette = self.palette;
        for (kind, chunk) in self.chunks.iter().filter(|(kind, _)| *kind != Kind::Sound) {
            let content = self.riff.content(chunk);
            let data = content.map_err(|error| Failure::Read(self.path.clone(), error))?;
            match kind {
                Kind::Colours => {
                    change(&mut palette, &data).map_err(|untaken| failure(&self.path, untaken))?
                }
                _ => take(Item { palette: &palette, data })?,
            }
        }
        Ok(())
    }
}

impl Stream {
    fn is(&self, kind: &[u8; 4]) -> bool {
        self.header.starts_with(kind)
    }
}

fn failure(path: &Path, untaken: Untaken) -> Failure {
    match untaken {
        Untaken::Unread(Unread::Failed(error)) => Failure::Read(path.into(), error),
        Untaken::Unread(Unread::BreaksOff) => {
            Failure::input(path, "breaks off: it is shorter than it says")
        }
        Untaken::Unread(Unread::OtherKind) => Failure::input(path, "is no AVI file"),
        Untaken::Wrong(words) => Failure::input(path, words),
    }
}

/// The headers, and the lists of what is shown and heard.
fn lists(riff: &mut Riff) -> Result<(Vec<Chunk>, Vec<Chunk>), Untaken> {
    let (mut headers, mut movies) = (Vec::new(), Vec::new());
    let chunks = riff.chunks_of(b"AVI ", b"AVIX")?;
    for list in chunks.into_iter().filter(|chunk| &chunk.name == b"LIST") {
        match riff.kind(&list)?.as_ref() {
            Some(b"hdrl") => headers.extend(riff.inside(&list)?),
            Some(b"movi") => movies.push(list),
            _ => {}
        }
    }
    Ok((headers, movies))
}

fn streams(riff: &mut Riff, headers: &[Chunk]) -> Result<Vec<Stream>, Untaken> {
    let mut streams = Vec::new();
    for list in headers.iter().filter(|chunk| &chunk.name == b"LIST") {
        if riff.kind(list)? != Some(*b"strl") {
            continue;
        }
        let parts = riff.inside(list)?;
        let mut content = |name: &[u8; 4]| match parts.iter().find(|part| &part.name == name) {
            Some(part) => riff.content(part),
            None => Ok(Vec::new()),
        };
        streams.push(Stream { header: content(b"strh")?, format: content(b"strf")? });
    }
    Ok(streams)
}

/// The size of the pictures, which must be of the one codec and of a size that a film can have.
fn size(format: &[u8]) -> Result<(usize, usize), Untaken> {
    let double = |at| double(format, at).ok_or(Untaken::Wrong("has no format of pictures".into()));
    let (width, height, codec) = (double(4)? as i32, double(8)? as i32, double(16)?.to_le_bytes());
    if !VIDEO_1.iter().any(|name| codec.eq_ignore_ascii_case(*name)) {
        let codec = codec.escape_ascii();
        return wrong(format!(
            "has pictures of the codec '{codec}': give Microsoft Video 1 (CRAM)"
        ));
    }
    let bits = word(format, 14).unwrap_or(0);
    if bits != 8 {
        return wrong(format!("has pictures of {bits} bits: give Microsoft Video 1 of 8 bits"));
    }
    let is_legal =
        |length: i32, most: usize| (4..=most as i32).contains(&length) && length % 4 == 0;
    if !is_legal(width, WIDEST) || !is_legal(height, HIGHEST) {
        let limits = format!("a film has at most {WIDEST}x{HIGHEST}, Video 1 multiples of 4");
        return wrong(format!("has pictures of {width}x{height} pixels: {limits}"));
    }
    Ok((width as usize, height as usize))
}

/// The microseconds of a picture: scale over rate, or else what the file's main header says.
fn interval(header: &[u8], main: &[u8]) -> Result<u32, Untaken> {
    let [scale, rate] = [20, 24].map(|at| double(header, at).map_or(0, u64::from));
    let told = (scale * 1_000_000 + rate / 2).checked_div(rate).filter(|&interval| interval > 0);
    match told.or(double(main, 0).map(u64::from)) {
        Some(interval @ 1..=LONGEST) => Ok(interval as u32),
        _ => wrong(format!("has {rate}/{scale} pictures a second, which no film can have")),
    }
}

/// The palette behind the header of a format: blue, green, red and a spare byte an entry.
fn palette(format: &[u8]) -> Box<Palette> {
    let mut palette = Box::new([[0; 3]; 256]);
    let header = double(format, 0).map_or(BITMAP_HEADER, |length| length as usize);
    let count = match double(format, 32) {
        Some(count @ 1..=255) => count as usize,
        _ => 256,
    };
    let entries = format.get(header..).unwrap_or_default().chunks_exact(4).take(count);
    for (colour, entry) in palette.iter_mut().zip(entries) {
        *colour = [entry[2], entry[1], entry[0]];
    }
    palette
}

/// A change of the palette: first entry, count (0 for 256), two bytes, then red, green, blue and a spare
/// byte an entry.
fn change(palette: &mut Palette, bytes: &[u8]) -> Result<(), Untaken> {
    let [first, count, _, _, ref colours @ ..] = *bytes else {
        return wrong("has a palette change that cannot be read");
    };
    let count = if count == 0 { 256 } else { usize::from(count) };
    let entries = palette.get_mut(usize::from(first)..usize::from(first) + count);
    let (Some(entries), true) = (entries, colours.len() >= 4 * count) else {
        return wrong("has a palette change that cannot be read");
    };
    for (entry, colour) in entries.iter_mut().zip(colours.chunks_exact(4)) {
        *entry = [colour[0], colour[1], colour[2]];
    }
    Ok(())
}

/// The frames, palette changes and sound of a list.
fn find(
    riff: &mut Riff,
    list: &Chunk,
    pictures: usize,
    sound: Option<usize>,
) -> Result<Vec<(Kind, Chunk)>, Untaken> {
    let kind_of = |chunk: &Chunk| {
        let [tens, ones, kind @ ..] = chunk.name;
        let number = |digit: u8| usize::from(digit.wrapping_sub(b'0'));
        let stream = 10 * number(tens) + number(ones);
        match &kind {
            b"dc" | b"db" if stream == pictures => Some(Kind::Frame),
            b"pc" if stream == pictures => Some(Kind::Colours),
            b"wb" if sound == Some(stream) => Some(Kind::Sound),
            _ => None,
        }
    };
    let chunks = parts(riff, list)?.into_iter();
    Ok(chunks.filter_map(|chunk| Some((kind_of(&chunk)?, chunk))).collect())
}

/// The chunks of a list, with those of the records in it in their places.
fn parts(riff: &mut Riff, list: &Chunk) -> Result<Vec<Chunk>, Untaken> {
    let mut parts = Vec::new();
    for chunk in riff.inside(list)? {
        match &chunk.name {
            b"LIST" if riff.kind(&chunk)? == Some(*b"rec ") => parts.extend(riff.inside(&chunk)?),
            _ => parts.push(chunk),
        }
    }
    Ok(parts)
}
