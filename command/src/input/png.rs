//! PNG pictures of all kinds.

use super::{check_size, Picture};
use crate::colours::narrow;
use crate::messages::Failure;
use ::png::{BitDepth, Decoder, DecodingError, Transformations};
use std::fs::File;
use std::io::BufReader;
use std::path::Path;

/// A component of 16 bits, all of it.
const FULL: u32 = 65_535;

pub fn read(path: &Path) -> Result<Picture, Failure> {
    let file = File::open(path).map_err(|error| Failure::Read(path.into(), error))?;
    let mut decoder = Decoder::new(BufReader::new(file));
    decoder.set_transformations(Transformations::EXPAND);
    let unread = |error: DecodingError| match error {
        DecodingError::IoError(error) => Failure::Read(path.into(), error),
        error => Failure::input(path, format!("cannot be read as a PNG picture: {error}")),
    };
    let mut reader = decoder.read_info().map_err(unread)?;
    let (width, height) = reader.info().size();
    check_size(path, width as usize, height as usize)?;
    let mut bytes = vec![0; reader.output_buffer_size()];
    reader.next_frame(&mut bytes).map_err(unread)?;
    let (colours, depth) = reader.output_color_type();
    let mut picture =
        Picture { width: width as usize, height: height as usize, ..Picture::default() };
    let samples = samples(&bytes, depth);
    for pixel in samples.chunks_exact(colours.samples()) {
        picture.add(pixel);
    }
    Ok(picture)
}

/// Samples of 16 bits.
fn samples(bytes: &[u8], depth: BitDepth) -> Vec<u16> {
    match depth {
        BitDepth::Sixteen => {
            bytes.chunks_exact(2).map(|pair| u16::from_be_bytes([pair[0], pair[1]])).collect()
        }
        _ => bytes.iter().map(|&byte| u16::from(byte) * 257).collect(),
    }
}

impl Picture {
    /// Adds a pixel: grey, or red, green and blue; where there is one sample more, how opaque it is.
    fn add(&mut self, samples: &[u16]) {
        let (colour, opaque) = match *samples {
            [grey] => ([grey; 3], u16::MAX),
            [grey, opaque] => ([grey; 3], opaque),
            [red, green, blue] => ([red, green, blue], u16::MAX),
            [red, green, blue, opaque] => ([red, green, blue], opaque),
            _ => ([0; 3], u16::MAX), // not met: there are one to four
        };
        let on_black = |sample| (u32::from(sample) * u32::from(opaque) + FULL / 2) / FULL;
        let parts = colour.map(|sample| narrow(on_black(sample) as i32));
        self.pixels.push(parts.map(|(component, _)| component));
        self.rounded |= parts.iter().any(|&(_, far)| far > 0);
        self.transparent |= opaque < u16::MAX;
    }
}

#[cfg(test)]
mod tests {
    use super::*;

    fn added(samples: &[u16]) -> ([u8; 3], bool, bool) {
        let mut picture = Picture::default();
        picture.add(samples);
        (picture.pixels[0], picture.rounded, picture.transparent)
    }

    #[test]
    fn pixels() {
        assert_eq!(added(&[65_535]), ([63; 3], false, false));
        assert_eq!(added(&[0, 65_535, 4 * 257]), ([0, 63, 1], false, false));
        assert_eq!(added(&[65_534]), ([63; 3], true, false));
        assert_eq!(added(&[65_535, 0]), ([0; 3], false, true));
        assert_eq!(added(&[0, 0, 65_535, 32_768]), ([0, 0, 32], true, true));
    }
}
