//! The sound files: WAV files that are numbered from 0.

use std::fs::{self, File, OpenOptions};
use std::io::{self, ErrorKind, Seek, SeekFrom, Write};
use std::path::{Path, PathBuf};

/// The bytes in front of the samples.
const HEADER: usize = 44;

/// A file that cannot be written, and why.
pub type Failed = (PathBuf, io::Error);

/// What the header of a sound file says of its samples.
#[derive(Clone, Copy, Debug, PartialEq, Eq)]
pub struct Format {
    pub stereo: bool,
    pub wide: bool,
    /// Samples of a channel in a second.
    pub rate: u16,
}

/// How many sound files were begun; and of the last one, which is being written, the format and the
/// bytes of samples that the saved state knows of.
#[derive(Clone, Copy, Debug, PartialEq, Eq)]
pub struct Sound {
    pub files: usize,
    format: Format,
    bytes: usize,
}

impl Sound {
    /// Before the first file.
    pub const NONE: Sound =
        Sound { files: 0, format: Format { stereo: false, wide: false, rate: 0 }, bytes: 0 };

    /// After a taken 03: goes on with the last file where format and rate are the same, else finishes
    /// it and begins the next.
    pub fn take_format(self, folder: &Path, format: Format) -> Result<Sound, Failed> {
        if self.files > 0 && self.format == format {
            return Ok(self);
        }
        self.finish(folder)?;
        let next = Sound { files: self.files + 1, format, bytes: 0 };
        let path = sound_path(folder, self.files);
        fs::write(&path, next.header()).map_err(|error| (path, error))?;
        Ok(next)
    }

    /// Writes the samples of a packet behind those that the saved state knows of, and not behind all
    /// that are in the file: a packet that is written again stands where it stood.
    pub fn write_samples(self, folder: &Path, samples: &[u8]) -> Result<Sound, Failed> {
        let bytes = self.bytes + samples.len();
        self.to_last(folder, |file| {
            if bytes > u32::MAX as usize - HEADER {
                return Err(ErrorKind::FileTooLarge.into()); // no WAV file is longer
            }
            write_at(file, HEADER + self.bytes, samples)
        })?;
        Ok(Sound { bytes, ..self })
    }

    /// Fills in the lengths of the last file, if there is one. Doing it twice changes nothing.
    pub fn finish(self, folder: &Path) -> Result<(), Failed> {
        self.to_last(folder, |file| {
            write_at(file, 0, &self.header())?;
            write_at(file, HEADER + self.bytes, &[0][..self.bytes % 2])
        })
    }

    /// At the start of a run: cuts the last file back to the samples that the saved state knows of, and
    /// removes one that was begun behind it.
    pub fn cut(self, folder: &Path) -> Result<(), Failed> {
        let path = sound_path(folder, self.files);
        match fs::remove_file(&path) {
            Err(error) if error.kind() != ErrorKind::NotFound => return Err((path, error)),
            _ => (),
        }
        self.to_last(folder, |file| file.set_len((HEADER + self.bytes) as u64))
    }

    /// Does something to the last file, if there is one.
    fn to_last(
        self,
        folder: &Path,
        act: impl FnOnce(&mut File) -> io::Result<()>,
    ) -> Result<(), Failed> {
        let Some(number) = self.files.checked_sub(1) else { return Ok(()) };
        let path = sound_path(folder, number);
        let opened = OpenOptions::new().write(true).open(&path);
        opened.and_then(|mut file| act(&mut file)).map_err(|error| (path, error))
    }

    /// The header of a WAV file; where the bytes of samples are odd, one is to follow them.
    fn header(self) -> Vec<u8> {
        let Sound { format: Format { stereo, wide, rate }, bytes, .. } = self;
        let (channels, sample) = (1 + u16::from(stereo), 1 + u16::from(wide));
        let number = |number: usize| (number as u32).to_le_bytes();
        let a_second = usize::from(rate) * usize::from(channels * sample);
        [
            &b"RIFF"[..],
            &number(HEADER - 8 + bytes + bytes % 2),
            b"WAVEfmt ",
            &number(16),
            &1_u16.to_le_bytes(), // samples as they are
            &channels.to_le_bytes(),
            &number(rate.into()),
            &number(a_second),
            &(channels * sample).to_le_bytes(),
            &(8 * sample).to_le_bytes(),
            b"data",
            &number(bytes),
        ]
        .concat()
    }
}

/// Written to the file itself: a stop loses nothing of it.
fn write_at(file: &mut File, offset: usize, bytes: &[u8]) -> io::Result<()> {
    file.seek(SeekFrom::Start(offset as u64))?;
    file.write_all(bytes)
}

fn sound_path(folder: &Path, number: usize) -> PathBuf {
    folder.join(format!("{number:06}.wav"))
}

#[cfg(test)]
mod tests {
    use super::*;
    use std::env;
    use std::process;

    /// What was written behind a state that is kept goes again: samples, and a file that was begun.
    #[test]
    fn cut() -> Result<(), Failed> {
        let folder = env::temp_dir().join(format!("play_cut_{}", process::id()));
        fs::create_dir_all(&folder).expect("a folder");
        let files = || {
            let file = |number| fs::read(sound_path(&folder, number)).ok();
            [file(0), file(1)]
        };
        let format = Format { stereo: false, wide: false, rate: 22_050 };
        let begun = Sound::NONE.take_format(&folder, format)?;
        let kept = begun.write_samples(&folder, &[1, 2, 3, 4])?;
        let later = kept.write_samples(&folder, &[5, 6, 7, 8, 9, 10])?;
        later.take_format(&folder, Format { rate: 11_025, ..format })?;
        let lengths = files().map(|file| file.map(|bytes| bytes.len()));
        assert_eq!(lengths, [Some(HEADER + 10), Some(HEADER)]);

        kept.cut(&folder)?;
        let [first, second] = files();
        let first = first.expect("the first file stays");
        assert_eq!((first.len(), &first[HEADER..]), (HEADER + 4, &[1, 2, 3, 4][..]));
        assert_eq!(second, None);

        Sound::NONE.cut(&folder)?;
        assert_eq!(files(), [None, None]);
        fs::remove_dir(&folder).expect("the folder is empty");
        Ok(())
    }
}
