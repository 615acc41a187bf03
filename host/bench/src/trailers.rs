//! Frames of Microsoft Video 1: those of one code, and pictures that change in runs of blocks.

use crate::kind::PRIMERS;
use crate::libav;
use crate::measure::Bench;
use crate::program::{memcpy, Program, SECOND, VIDEO1};
use maker::trailers::{encoded, picture, valid, Codes};
use maker::{Seeded, Size};
use reference::video1::decode;

/// Frames that are timed of each kind.
const TIMED: usize = 4;
const LARGE: Size = Size { columns: 80, rows: 60 };

/// The kinds by name: frames of one code, and where there is none, runs of 1 to 40 blocks that are skipped or
/// have one, two or eight colours.
const KINDS: [(&str, Option<Codes>); 5] = [
    ("one", Some(Codes::One)),
    ("two", Some(Codes::Two)),
    ("eight", Some(Codes::Eight)),
    ("skips", Some(Codes::Skips)),
    ("runs", None),
];

/// Every kind, with its programs.
pub fn all(seed: u64) -> Result<Vec<Bench>, String> {
    KINDS.iter().map(|&(name, codes)| bench(name, codes, LARGE, seed)).collect()
}

fn bench(name: &'static str, codes: Option<Codes>, size: Size, seed: u64) -> Result<Bench, String> {
    let rng = &mut Seeded::new(seed);
    let (mut drawn, mut frames, mut wanted) = (vec![0; size.pixels()], Vec::new(), Vec::new());
    for number in 0..PRIMERS + TIMED {
        let frame = match codes {
            _ if number < PRIMERS => valid(rng, size, Codes::Eight), // it reads no pixel
            Some(codes) => valid(rng, size, codes),
            None => {
                let next = picture(rng, size, &drawn);
                encoded(rng, size, &drawn, &next).ok_or("a block of too many colours")?
            }
        };
        decode(size.columns, size.rows, &frame, &mut drawn)
            .map_err(|refusal| refusal.to_string())?;
        frames.push(frame);
        wanted.push(drawn.clone());
    }
    Ok(Bench::of((name, size), seed, wanted, programs(size, &frames)))
}

/// Every program that is there, each with its own copies of the frames and its own picture.
fn programs(size: Size, frames: &[Vec<u8>]) -> Vec<Box<dyn Program>> {
    let drawing = |name, draw: Draw| {
        let picture = vec![0; size.pixels()];
        Box::new(Drawing { name, draw, size, frames: frames.to_vec(), picture })
    };
    let mut programs: Vec<Box<dyn Program>> = vec![
        memcpy(size),
        drawing(VIDEO1, |size, frame, picture| {
            let drawn = mve::video1(size.columns, size.rows, frame, picture);
            drawn.map_err(|error| error.to_string())
        }),
    ];
    programs.extend(libav::trailers(size, frames));
    programs.push(drawing(SECOND, |size, frame, picture| {
        let drawn = decode(size.columns, size.rows, frame, picture);
        drawn.map_err(|refusal| refusal.to_string())
    }));
    programs
}

/// Draws a frame of a size on a picture; else why it is not taken.
type Draw = fn(Size, &[u8], &mut [u8]) -> Result<(), String>;

/// One of the decoders that draw on a picture that is lent to them.
struct Drawing {
    name: &'static str,
    draw: Draw,
    size: Size,
    frames: Vec<Vec<u8>>,
    picture: Vec<u8>,
}

impl Program for Drawing {
    fn name(&self) -> &'static str {
        self.name
    }

    fn run(&mut self, number: usize) -> Result<(), String> {
        (self.draw)(self.size, &self.frames[number], &mut self.picture)
    }

    fn picture(&mut self) -> Option<&[u8]> {
        Some(&self.picture)
    }
}

#[cfg(test)]
mod tests {
    use super::*;

    /// Every kind is taken and gives the same pictures round by round.
    #[test]
    fn kinds() {
        for (name, codes) in KINDS {
            let mut bench = bench(name, codes, Size::new(9, 7), 3).expect("valid frames");
            for round in 0..3 {
                bench.round(round).expect("programs that agree");
            }
        }
    }
}
