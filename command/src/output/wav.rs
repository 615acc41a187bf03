//! WAV files. A file has one format, so where the film's changes the next file begins.

use super::{Overwrite, Part};
use crate::film::STANDARD;
use crate::messages::Failure;
use crate::sound::Format;
use std::env;
use std::fs::File;
use std::io::{self, BufWriter, Read, Seek, SeekFrom, Write};
use std::ops::Range;
use std::path::{Path, PathBuf};

/// The bytes in front of the samples.
const HEADER: u64 = 44;
/// A header counts the bytes behind its first 8 by 32 bits; samples may need a byte behind them.
const LONGEST: u64 = u32::MAX as u64 - (HEADER - 8) - 1;
const SECOND: u64 = 1_000_000;

/// The sound of a film.
pub struct Wav {
    /// A file, or [`STANDARD`].
    target: PathBuf,
    /// Of the next samples.
    format: Option<Format>,
    recordings: Vec<Recording>,
}

/// The part of the sound that is wanted, in microseconds.
#[derive(Clone, Copy, Debug, Default, PartialEq, Eq)]
pub struct Cut {
    pub from: u64,
    /// None: up to its end.
    pub to: Option<u64>,
}

struct Recording {
    part: Part,
    file: BufWriter<File>,
    format: Format,
    /// Of samples.
    bytes: u64,
}

impl Wav {
    pub fn new(target: &Path) -> Wav {
        Wav { target: target.into(), format: None, recordings: Vec::new() }
    }

    /// Takes the format of the samples that follow.
    pub fn take_format(&mut self, format: Format) {
        self.format = Some(format);
    }

    /// Takes samples.
    pub fn add(&mut self, samples: &[u8]) -> Result<(), Failure> {
        let Some(format) = self.format.filter(|_| !samples.is_empty()) else { return Ok(()) };
        let goes_on = self.recordings.last().is_some_and(|last| last.has_header_of(&format));
        if !goes_on {
            // What goes to standard output is complete before its first byte goes: its header, which is in
            // front, has the length.
            let standard = || env::temp_dir().join("mve.wav");
            let target = if self.is_standard() { standard() } else { self.target.clone() };
            self.recordings.push(Recording::begin(&target, format)?);
        }
        let Some(last) = self.recordings.last_mut() else { return Ok(()) };
        last.bytes += samples.len() as u64;
        if last.bytes > LONGEST {
            return Err(Failure::SoundTooLong(self.target.clone()));
        }
        last.file.write_all(samples).map_err(|error| Failure::write(&self.target, error))
    }

    /// Whether there are no samples.
    pub fn is_empty(&self) -> bool {
        self.recordings.is_empty()
    }

    /// The microseconds of all samples so far.
    pub fn elapsed(&self) -> u64 {
        self.recordings.iter().map(Recording::duration).sum()
    }

    /// Completes the files of what is wanted. Where that is nothing, one is empty.
    pub fn finish(self, cut: Cut, overwrite: &Overwrite) -> Result<Vec<Part>, Failure> {
        let (is_standard, count) = (self.is_standard(), self.recordings.len());
        let mut start = 0;
        let mut parts = Vec::new();
        for (number, recording) in self.recordings.into_iter().enumerate() {
            let wanted = recording.wanted(start, cut);
            start += recording.duration();
            if wanted.is_empty() && !(parts.is_empty() && number + 1 == count) {
                continue;
            }
            let target = numbered(&self.target, parts.len());
            if !is_standard {
                overwrite.check(&target)?;
            }
            parts.push(recording.finish(wanted, target)?);
        }
        match &parts[..] {
            [only] if is_standard => {
                only.send(io::stdout()).map_err(Failure::standard_output).map(|()| Vec::new())
            }
            [_, _, ..] if is_standard => Err(Failure::ManyFormats),
            _ => Ok(parts),
        }
    }

    fn is_standard(&self) -> bool {
        self.target == Path::new(STANDARD)
    }
}

impl Recording {
    fn begin(target: &Path, format: Format) -> Result<Recording, Failure> {
        let (part, file) = Part::file(target)?;
        let mut file = BufWriter::new(file);
        let room = file.write_all(&[0; HEADER as usize]); // for the header, which is written last
        room.map_err(|error| Failure::write(target, error))?;
        Ok(Recording { part, file, format, bytes: 0 })
    }

    /// Whether the header of a file of such samples is the same; what is compressed in the film is not
    /// in the file.
    fn has_header_of(&self, format: &Format) -> bool {
        let compressed = self.format.compressed;
        self.format == Format { compressed, ..*format }
    }

    fn frames(&self) -> u64 {
        self.bytes / u64::from(self.format.frame_bytes())
    }

    fn duration(&self) -> u64 {
        self.frames() * SECOND / u64::from(self.format.rate).max(1)
    }

    /// The bytes of samples that a cut leaves, where the recording starts at this time.
    fn wanted(&self, start: u64, cut: Cut) -> Range<u64> {
        let byte = |time: u64| {
            let (time, rate) =
                (u128::from(time.saturating_sub(start)), u128::from(self.format.rate));
            let frame = time * rate / u128::from(SECOND);
            (frame as u64).min(self.frames()) * u64::from(self.format.frame_bytes())
        };
        byte(cut.from)..cut.to.map_or(self.bytes, byte)
    }

    fn finish(self, wanted: Range<u64>, target: PathBuf) -> Result<Part, Failure> {
        let Recording { mut part, file, format, .. } = self;
        part.target = target;
        let file = file.into_inner().map_err(io::IntoInnerError::into_error);
        let finished = file.and_then(|file| complete(file, &format, wanted));
        finished.map_err(|error| Failure::write(&part.target, error))?;
        Ok(part)
    }
}

/// Moves the samples that are wanted to the front, cuts the file behind them, and writes its header.
fn complete(mut file: File, format: &Format, wanted: Range<u64>) -> io::Result<()> {
    let bytes = wanted.end.saturating_sub(wanted.start);
    if wanted.start > 0 {
        move_to_front(&mut file, wanted)?;
    }
    file.set_len(HEADER + bytes)?;
    file.set_len(HEADER + bytes + bytes % 2)?; // the byte behind an odd number is 0
    file.seek(SeekFrom::Start(0))?;
    file.write_all(&header(format, bytes as u32))
}

fn move_to_front(file: &mut File, wanted: Range<u64>) -> io::Result<()> {
    let mut buffer = vec![0; 1 << 16];
    let mut moved = 0;
    while wanted.start + moved < wanted.end {
        let count = (wanted.end - wanted.start - moved).min(buffer.len() as u64) as usize;
        file.seek(SeekFrom::Start(HEADER + wanted.start + moved))?;
        file.read_exact(&mut buffer[..count])?;
        file.seek(SeekFrom::Start(HEADER + moved))?;
        file.write_all(&buffer[..count])?;
        moved += count as u64;
    }
    Ok(())
}

fn header(format: &Format, bytes: u32) -> Vec<u8> {
    let Format { rate, channels, bits, .. } = *format;
    let a_second = u32::from(rate) * u32::from(format.frame_bytes());
    [
        &b"RIFF"[..],
        &(HEADER as u32 - 8 + bytes + bytes % 2).to_le_bytes(),
        b"WAVEfmt ",
        &16_u32.to_le_bytes(),
        &1_u16.to_le_bytes(), // samples as they are
        &channels.to_le_bytes(),
        &u32::from(rate).to_le_bytes(),
        &a_second.to_le_bytes(),
        &format.frame_bytes().to_le_bytes(),
        &bits.to_le_bytes(),
        b"data",
        &bytes.to_le_bytes(),
    ]
    .concat()
}

/// The name of a file: the first has the name that was given, the second .2 before its ending.
fn numbered(target: &Path, number: usize) -> PathBuf {
    match number {
        0 => target.into(),
        _ => target.with_extension(format!("{}.wav", number + 1)),
    }
}

#[cfg(test)]
mod tests {
    use super::*;
    use std::{env, fs, process};

    /// A header counts by 32 bits; one byte more than it can count is refused.
    #[test]
    fn longest() {
        let folder = env::temp_dir().join(format!("mve_longest_{}", process::id()));
        fs::create_dir_all(&folder).expect("a folder");
        let mut wav = Wav::new(&folder.join("out.wav"));
        wav.take_format(Format { rate: 8000, channels: 1, bits: 8, compressed: false });
        assert!(wav.is_empty());
        wav.add(&[1]).expect("a sample");
        wav.recordings[0].bytes = LONGEST - 1;
        wav.add(&[2]).expect("the last sample");
        assert!(matches!(wav.add(&[3]), Err(Failure::SoundTooLong(_))));
        let counted = HEADER - 8 + LONGEST + LONGEST % 2;
        assert!(counted <= u64::from(u32::MAX) && counted + 2 > u64::from(u32::MAX));
        drop(wav);
        fs::remove_dir(&folder).expect("the folder is empty");
    }
}
