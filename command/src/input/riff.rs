//! RIFF, the frame of WAV and AVI files: chunks with a name and a length, some of them with chunks
//! inside.

use std::fs::File;
use std::io::{self, BufReader, Read, Seek, SeekFrom};
use std::ops::Range;
use std::path::Path;

/// Bytes of a chunk's head, and of a list's or a file's kind behind it.
const HEAD: u64 = 8;
const KIND: u64 = 4;

/// A file of chunks.
#[derive(Debug)]
pub struct Riff {
    file: BufReader<File>,
    length: u64,
}

/// A chunk: its name, and where its content is.
#[derive(Clone, Debug, PartialEq, Eq)]
pub struct Chunk {
    pub name: [u8; 4],
    pub content: Range<u64>,
}

/// Why a file is not read.
#[derive(Debug)]
pub enum Unread {
    Failed(io::Error),
    /// A chunk passes the end of the file or of the chunk around it.
    BreaksOff,
    /// It does not begin as such a file does.
    OtherKind,
}

impl From<io::Error> for Unread {
    fn from(error: io::Error) -> Unread {
        Unread::Failed(error)
    }
}

impl Riff {
    pub fn open(path: &Path) -> io::Result<Riff> {
        let file = File::open(path)?;
        let length = file.metadata()?.len();
        Ok(Riff { file: BufReader::new(file), length })
    }

    /// The chunks of a file of this kind. A long file goes on in parts of another kind.
    pub fn chunks_of(&mut self, kind: &[u8; 4], more: &[u8; 4]) -> Result<Vec<Chunk>, Unread> {
        let (mut found, mut at) = (Vec::new(), 0);
        while let Some(part) = self.head(at..self.length)? {
            let expected = if at == 0 { kind } else { more };
            if &part.name != b"RIFF" || self.kind(&part)? != Some(*expected) {
                break;
            }
            if part.content.end > self.length {
                return Err(Unread::BreaksOff);
            }
            at = padded(part.content.end);
            found.extend(self.chunks(part.content.start + KIND..part.content.end)?);
        }
        if at == 0 {
            return Err(Unread::OtherKind);
        }
        Ok(found)
    }

    /// The kind of a list.
    pub fn kind(&mut self, list: &Chunk) -> io::Result<Option<[u8; 4]>> {
        if list.content.start + KIND > self.length {
            return Ok(None);
        }
        self.file.seek(SeekFrom::Start(list.content.start))?;
        let mut kind = [0; KIND as usize];
        self.file.read_exact(&mut kind)?;
        Ok(Some(kind))
    }

    /// The chunks inside a list.
    pub fn inside(&mut self, list: &Chunk) -> Result<Vec<Chunk>, Unread> {
        let Range { start, end } = list.content;
        self.chunks((start + KIND).min(end)..end)
    }

    /// All chunks between two places.
    fn chunks(&mut self, within: Range<u64>) -> Result<Vec<Chunk>, Unread> {
        let (mut found, mut at) = (Vec::new(), within.start);
        while let Some(chunk) = self.head(at..within.end)? {
            if chunk.content.end > within.end {
                return Err(Unread::BreaksOff);
            }
            at = padded(chunk.content.end);
            found.push(chunk);
        }
        Ok(found)
    }

    /// The chunk at a place; none where there is no room for its head.
    fn head(&mut self, within: Range<u64>) -> io::Result<Option<Chunk>> {
        if within.start + HEAD > within.end {
            return Ok(None);
        }
        self.file.seek(SeekFrom::Start(within.start))?;
        let (mut name, mut length) = ([0; 4], [0; 4]);
        self.file.read_exact(&mut name)?;
        self.file.read_exact(&mut length)?;
        let start = within.start + HEAD;
        let end = start + u64::from(u32::from_le_bytes(length));
        Ok(Some(Chunk { name, content: start..end }))
    }

    /// The content of a chunk, which is inside the file.
    pub fn content(&mut self, chunk: &Chunk) -> io::Result<Vec<u8>> {
        let Range { start, end } = chunk.content;
        let mut content = vec![0; (end - start) as usize];
        self.file.seek(SeekFrom::Start(start))?;
        self.file.read_exact(&mut content)?;
        Ok(content)
    }
}

/// Chunks begin at even places.
fn padded(place: u64) -> u64 {
    place + place % 2
}

/// A word of some bytes.
pub fn word(bytes: &[u8], at: usize) -> Option<u16> {
    Some(u16::from_le_bytes(*bytes.get(at..)?.first_chunk()?))
}

/// A double word of some bytes.
pub fn double(bytes: &[u8], at: usize) -> Option<u32> {
    Some(u32::from_le_bytes(*bytes.get(at..)?.first_chunk()?))
}
