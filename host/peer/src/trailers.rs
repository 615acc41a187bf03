//! Frames of Microsoft Video 1, decoded by libavcodec and by the proved library: every picture is compared.
//!
//! The frames have what both take alike: the end mark and no byte behind it, no skip of no block and none past
//! the last one. The first frame skips nothing, since libavcodec lends no picture.

use crate::libav;
use maker::trailers::{encoded, picture, valid, Codes};
use maker::{Seeded, Size};
use std::collections::BTreeSet;
use std::fmt;

/// Frames of a case.
const FRAMES: usize = 6;

/// What was compared.
#[derive(Clone, Debug, Default, PartialEq, Eq)]
pub struct Tally {
    /// Frames.
    pub frames: usize,
    /// Bytes of their data.
    pub bytes: usize,
    /// Pixels of their pictures.
    pub pixels: usize,
    /// Pixels that are not those of the picture before.
    pub changed: usize,
    /// The sizes, in blocks of 8x8: columns and rows.
    pub sizes: BTreeSet<(usize, usize)>,
}

impl fmt::Display for Tally {
    fn fmt(&self, f: &mut fmt::Formatter<'_>) -> fmt::Result {
        let Tally { frames, bytes, pixels, changed, sizes } = self;
        let sizes = sizes.len();
        write!(
            f,
            "{frames} frames of {bytes} bytes, {pixels} pixels ({changed} changed), {sizes} sizes"
        )
    }
}

/// The frames of a case.
pub fn frames(rng: &mut Seeded, size: Size) -> Vec<Vec<u8>> {
    let whole = rng.pick(&[Codes::One, Codes::Two, Codes::Eight]);
    let mut frames = vec![valid(rng, size, whole)];
    let mut before = vec![0; size.pixels()];
    while frames.len() < FRAMES {
        let drawn = mve::video1(size.columns, size.rows, &frames[frames.len() - 1], &mut before);
        drawn.expect("a valid frame");
        let codes =
            rng.pick(&[None, None, Some(Codes::Skips), Some(Codes::Two), Some(Codes::Eight)]);
        frames.push(match codes {
            Some(codes) => valid(rng, size, codes),
            None => {
                let next = picture(rng, size, &before);
                encoded(rng, size, &before, &next).expect("blocks of few colours")
            }
        });
    }
    frames
}

impl Tally {
    /// Decodes the frames of a case by both and notes them; what the pictures differ in.
    pub fn compare(&mut self, seed: u64, number: u64) -> Result<(), String> {
        let rng = &mut Seeded::new(seed.wrapping_mul(1_000_003).wrapping_add(number));
        let size = match number % 8 {
            0 => Size::any(rng),
            _ => Size::small(rng),
        };
        let frames = frames(rng, size);
        let theirs = libav::trailer((size.width(), size.height()), &frames)?;
        let mut picture = vec![0; size.pixels()];
        for (number, (frame, theirs)) in frames.iter().zip(theirs).enumerate() {
            let before = picture.clone();
            let ours = mve::video1(size.columns, size.rows, frame, &mut picture);
            same(ours, &picture, &theirs).map_err(|what| format!("frame {number}: {what}"))?;
            self.note(size, frame, &before, &picture);
        }
        Ok(())
    }

    fn note(&mut self, size: Size, frame: &[u8], before: &[u8], picture: &[u8]) {
        self.frames += 1;
        self.bytes += frame.len();
        self.pixels += picture.len();
        self.changed += before.iter().zip(picture).filter(|(one, other)| one != other).count();
        self.sizes.insert((size.columns, size.rows));
    }
}

/// Compares what both make of a frame: neither refuses it, and the pictures are the same.
pub fn same(
    ours: Result<(), mve::Error>,
    picture: &[u8],
    theirs: &libav::Decoded,
) -> Result<(), String> {
    ours.map_err(|error| error.to_string())?;
    let theirs = theirs.as_ref().map_err(|error| format!("libav says {error}"))?;
    match picture.iter().zip(theirs).position(|(one, other)| one != other) {
        None if picture.len() == theirs.len() => Ok(()),
        None => Err(format!("{} pixels, {} by libav", picture.len(), theirs.len())),
        Some(at) => {
            Err(format!("pixel {at}: {} by the library, {} by libav", picture[at], theirs[at]))
        }
    }
}
