//! Uncompressed sound: that of WAV files, and the formats that a film can have.

use super::riff::{double, word, Chunk, Riff, Unread};
use crate::messages::Failure;
use crate::sound::Format;
use std::fmt;
use std::path::Path;

/// The format of samples as they are, and the one that names another.
const PLAIN: u16 = 1;
const EXTENSIBLE: u16 = 0xFFFE;
/// Where an extensible format has the format that it names.
const NAMED: usize = 24;

/// Sound of one format.
#[derive(Clone, Debug, PartialEq, Eq)]
pub struct Pcm {
    pub format: Format,
    /// As a film has them, channel by channel.
    pub samples: Vec<u8>,
}

/// Why a film cannot have a format.
#[derive(Clone, Debug, PartialEq, Eq)]
pub enum Unfit {
    /// It cannot be read.
    Broken,
    /// By its number.
    Compressed(u16),
    Channels(u16),
    Bits(u16),
    Rate(u32),
}

impl fmt::Display for Unfit {
    fn fmt(&self, f: &mut fmt::Formatter<'_>) -> fmt::Result {
        match self {
            Unfit::Broken => write!(f, "has no format that can be read"),
            Unfit::Compressed(number) => {
                write!(f, "is compressed, or of another kind than plain samples (format {number})")
            }
            Unfit::Channels(count) => write!(f, "has {count} channels: a film has 1 or 2"),
            Unfit::Bits(bits) => write!(f, "has {bits} bits a sample: a film has 8 or 16"),
            Unfit::Rate(rate) => {
                write!(f, "has {rate} samples a second: a film has 1 to {}", u16::MAX)
            }
        }
    }
}

impl Pcm {
    /// Reads a WAV file.
    pub fn read(path: &Path) -> Result<Pcm, Failure> {
        let (format, samples) = parts(path).map_err(|unread| match unread {
            Unread::Failed(error) => Failure::Read(path.into(), error),
            Unread::BreaksOff => Failure::input(path, "breaks off: it is shorter than it says"),
            Unread::OtherKind => Failure::input(path, "is no WAV file"),
        })?;
        let format = format_of(&format.unwrap_or_default());
        let format = format.map_err(|unfit| Failure::input(path, format!("the sound {unfit}")))?;
        let samples = samples.ok_or_else(|| Failure::input(path, "has no samples"))?;
        Ok(Pcm { format, samples: whole(samples, &format) })
    }
}

/// Samples without the part of one at the end.
pub fn whole(mut samples: Vec<u8>, format: &Format) -> Vec<u8> {
    let frame = usize::from(format.frame_bytes());
    samples.truncate(samples.len() / frame * frame);
    samples
}

/// The format and the samples, as far as they are there.
fn parts(path: &Path) -> Result<(Option<Vec<u8>>, Option<Vec<u8>>), Unread> {
    let mut riff = Riff::open(path)?;
    let chunks = riff.chunks_of(b"WAVE", b"WAVE")?;
    let named = |name: &[u8; 4]| chunks.iter().find(|chunk| &chunk.name == name);
    let mut content = |chunk: Option<&Chunk>| chunk.map(|chunk| riff.content(chunk)).transpose();
    Ok((content(named(b"fmt "))?, content(named(b"data"))?))
}

/// A film's format, from that of a WAV or an AVI file.
pub fn format_of(bytes: &[u8]) -> Result<Format, Unfit> {
    let word = |at| word(bytes, at).ok_or(Unfit::Broken);
    let (kind, channels, bits) = (word(0)?, word(2)?, word(14)?);
    let rate = double(bytes, 4).ok_or(Unfit::Broken)?;
    match if kind == EXTENSIBLE { word(NAMED)? } else { kind } {
        PLAIN => {}
        other => return Err(Unfit::Compressed(other)),
    }
    if !(1..=2).contains(&channels) {
        return Err(Unfit::Channels(channels));
    }
    if ![8, 16].contains(&bits) {
        return Err(Unfit::Bits(bits));
    }
    match u16::try_from(rate) {
        Ok(rate @ 1..) => Ok(Format { rate, channels, bits, compressed: false }),
        _ => Err(Unfit::Rate(rate)),
    }
}

#[cfg(test)]
mod tests {
    use super::*;

    fn format(kind: u16, channels: u16, rate: u32, bits: u16) -> Vec<u8> {
        let words = [kind, channels].map(u16::to_le_bytes).concat();
        let rest = [0, bits].map(u16::to_le_bytes).concat();
        [&words[..], &rate.to_le_bytes(), &[0; 4], &rest].concat()
    }

    #[test]
    fn formats() {
        let right = Format { rate: 44_100, channels: 2, bits: 16, compressed: false };
        assert_eq!(format_of(&format(1, 2, 44_100, 16)), Ok(right));
        let extensible = [&format(0xFFFE, 2, 44_100, 16)[..], &[22, 0, 16, 0, 3, 0, 0, 0]].concat();
        assert_eq!(format_of(&[&extensible[..], &[1, 0]].concat()), Ok(right));
        assert_eq!(format_of(&[&extensible[..], &[3, 0]].concat()), Err(Unfit::Compressed(3)));
        assert_eq!(format_of(&extensible), Err(Unfit::Broken));
        assert_eq!(format_of(&format(2, 2, 44_100, 4)), Err(Unfit::Compressed(2)));
        assert_eq!(format_of(&format(1, 6, 44_100, 16)), Err(Unfit::Channels(6)));
        assert_eq!(format_of(&format(1, 0, 44_100, 16)), Err(Unfit::Channels(0)));
        assert_eq!(format_of(&format(1, 1, 44_100, 24)), Err(Unfit::Bits(24)));
        assert_eq!(format_of(&format(1, 1, 65_536, 8)), Err(Unfit::Rate(65_536)));
        assert_eq!(format_of(&format(1, 1, 0, 8)), Err(Unfit::Rate(0)));
        assert_eq!(format_of(&format(1, 1, 8000, 8)[..15]), Err(Unfit::Broken));
    }
}
