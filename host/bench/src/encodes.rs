//! Times of encoding pictures, beside the drawing of what comes of it: five looks, and one of them in ten
//! sizes. Every map and body is compared with the second program's, every picture with the wanted one.

use crate::blocks::{Point, SIZES};
use crate::measure::timed;
use crate::program::{DRAW, ENCODE};
use maker::wanted::{Look, Wanted};
use maker::{Seeded, Size};
use reference::encode::{encode, Encoded, FRONT};
use std::hint::black_box;
use std::time::Duration;

/// The packets of all looks fit an opcode in this size: at most 64 bytes a block.
const SMALL: Size = Size { columns: 40, rows: 24 };

/// Pixels that are timed in one go, at least: a clock tells little of a picture of one block.
const PIXELS: usize = 20_000;

/// Pictures of a size: more than one, so that none is timed that the branch predictors have just learned,
/// and many small ones, since they are timed in a row.
fn picture_count(size: Size) -> usize {
    (4_800 / size.blocks()).clamp(4, 400)
}

/// How many of them are timed in a row.
fn in_a_row(size: Size) -> usize {
    PIXELS.div_ceil(size.pixels())
}

/// What the pictures are.
#[derive(Clone, Copy, Debug, PartialEq, Eq)]
pub enum Kind {
    /// Those of front.
    Unchanged,
    /// A colour a block.
    Flat,
    /// Two colours by chance.
    TwoColours,
    /// Two colours in turn, others in each block.
    Dithered,
    /// Many colours in each block.
    Photographic,
}

impl Kind {
    const ALL: [Kind; 5] =
        [Kind::Unchanged, Kind::Flat, Kind::TwoColours, Kind::Dithered, Kind::Photographic];

    /// What the table calls them.
    pub fn name(self) -> &'static str {
        match self {
            Kind::Unchanged => "unchanged",
            Kind::Flat => "flat",
            Kind::TwoColours => "two colours",
            Kind::Dithered => "dithered",
            Kind::Photographic => "photographic",
        }
    }

    /// A picture.
    fn picture(self, rng: &mut Seeded, size: Size) -> Vec<u8> {
        let (width, pixels) = (size.width(), 0..size.pixels());
        match self {
            Kind::Unchanged | Kind::Photographic => {
                let shade = |i: usize| i % width / 3 + i / width / 5;
                pixels.map(|i| (shade(i) + rng.below(3)) as u8).collect()
            }
            Kind::Flat => {
                let colours = rng.bytes(size.blocks());
                let block = |i: usize| i / width / 8 * size.columns + i % width / 8;
                pixels.map(|i| colours[block(i)]).collect()
            }
            Kind::TwoColours => {
                let colours = [rng.byte(), rng.byte()];
                pixels.map(|_| rng.pick(&colours)).collect()
            }
            Kind::Dithered => Look::Dithered.picture(rng, size),
        }
    }

    /// A wanted picture, and the two before it: other pictures of the kind, but for those that are unchanged.
    fn wanted(self, rng: &mut Seeded, size: Size) -> Wanted {
        let [wanted, front, back] = [0, 1, 2].map(|_| self.picture(rng, size));
        let front = if self == Kind::Unchanged { wanted.clone() } else { front };
        Wanted { size, wanted, front, back }
    }
}

/// A picture, and what the second program makes of it.
struct One {
    wanted: Wanted,
    made: Encoded,
}

/// Pictures of a kind.
pub struct Encodes {
    /// The kind.
    pub kind: Kind,
    /// Their size.
    pub size: Size,
    seed: u64,
    pictures: Vec<One>,
    map: Vec<u8>,
    body: Vec<u8>,
    /// The least times of some pictures in a row, of the encoding and of the drawing.
    least: Vec<[Duration; 2]>,
}

impl Encodes {
    /// Pictures of each kind.
    pub fn all(seed: u64) -> Result<Vec<Encodes>, String> {
        Kind::ALL.map(|kind| Encodes::new(kind, SMALL, seed)).into_iter().collect()
    }

    /// Pictures of two colours in ten sizes.
    pub fn sizes(seed: u64) -> Result<Vec<Encodes>, String> {
        let sizes = SIZES.map(|(columns, rows)| Size::new(columns, rows));
        sizes.map(|size| Encodes::new(Kind::TwoColours, size, seed)).into_iter().collect()
    }

    fn new(kind: Kind, size: Size, seed: u64) -> Result<Encodes, String> {
        let rng = &mut Seeded::new(seed);
        let one = |_| {
            let wanted = kind.wanted(rng, size);
            let made = by_second(&wanted)?;
            Ok(One { wanted, made })
        };
        let pictures: Result<Vec<One>, String> = (0..picture_count(size)).map(one).collect();
        let (map, body) = (vec![0; mve::MAP_BYTES], vec![0; mve::BODY_BYTES]);
        let least = vec![[Duration::MAX; 2]; picture_count(size).div_ceil(in_a_row(size))];
        Ok(Encodes { kind, size, seed, pictures: pictures?, map, body, least })
    }

    /// All pictures, some in a row, encoded and then drawn; what comes of each is compared.
    pub fn round(&mut self) -> Result<(), String> {
        let Encodes { pictures, map, body, least, size, .. } = self;
        let mut is_right = true;
        for (pictures, least) in pictures.chunks(in_a_row(*size)).zip(least) {
            let encoded = timed(|| {
                pictures.iter().all(|one| encode_one(black_box(&one.wanted), map, body).is_ok())
            });
            let backs = pictures.iter().map(|one| one.wanted.back.clone());
            let mut drawn: Vec<Vec<u8>> = backs.collect();
            let drawing = timed(|| {
                pictures.iter().zip(&mut drawn).all(|(one, drawn)| draw_one(one, drawn).is_ok())
            });
            *least = [least[0].min(encoded.1), least[1].min(drawing.1)];
            is_right &= encoded.0 && drawing.0;
            for (one, drawn) in pictures.iter().zip(&drawn) {
                is_right &= *drawn == one.wanted.wanted && is_made(one, map, body);
            }
        }
        is_right.then_some(()).ok_or_else(|| {
            let (kind, Size { columns, rows }) = (self.kind.name(), self.size);
            let seed = self.seed;
            format!("seed {seed}, {kind}, {columns} by {rows} blocks: not as by the second program")
        })
    }

    /// Nanoseconds of a picture: of the encoding and of the drawing.
    fn times(&self) -> [f64; 2] {
        [0, 1].map(|which| {
            let least = self.least.iter().map(|least| least[which].as_nanos() as f64);
            least.sum::<f64>() / self.pictures.len() as f64
        })
    }

    /// Nanoseconds a pixel by program.
    pub fn measured(&self) -> [(&'static str, f64); 2] {
        let [encode, draw] = self.times().map(|time| time / self.size.pixels() as f64);
        [(ENCODE, encode), (DRAW, draw)]
    }

    /// Data bytes of a picture, their mean.
    pub fn bytes(&self) -> usize {
        let bytes = self.pictures.iter().map(|one| one.made.body.len() - FRONT);
        bytes.sum::<usize>() / self.pictures.len()
    }

    /// The size and the time of a picture that is encoded.
    pub fn point(&self) -> Point {
        Point { size: self.size, time: self.times()[0] }
    }
}

fn encode_one(
    wanted: &Wanted,
    map: &mut [u8],
    body: &mut [u8],
) -> Result<mve::Encoded, mve::Refusal> {
    let Wanted { size, wanted, front, back } = wanted;
    mve::encode(size.columns, size.rows, wanted, front, back, map, body)
}

/// Whether map and body, in rooms that held other bytes, are the second program's.
fn is_made(one: &One, map: &mut [u8], body: &mut [u8]) -> bool {
    map.fill(0xFF);
    body.fill(0xFF);
    let Ok(told) = encode_one(&one.wanted, map, body) else { return false };
    map[..told.map_length] == one.made.map && body[..told.body_length] == one.made.body
}

fn draw_one(one: &One, drawn: &mut [u8]) -> Result<mve::Drawn, mve::Refusal> {
    let One { wanted: Wanted { size, front, .. }, made: Encoded { map, body } } = one;
    let (packet, all) = (&body[FRONT..], mve::ALL_STORES);
    mve::draw_strict(size.columns, size.rows, map, packet, front, drawn, &mut 0, all)
}

fn by_second(wanted: &Wanted) -> Result<Encoded, String> {
    let Wanted { size, wanted, front, back } = wanted;
    let most = usize::MAX;
    encode(size.columns, size.rows, wanted, front, back, most, most).map_err(|why| why.to_string())
}

#[cfg(test)]
mod tests {
    use super::*;

    /// Another map, another packet and another picture are found.
    #[test]
    fn differences() {
        let encodes = || Encodes::new(Kind::TwoColours, Size::new(3, 2), 1).expect("pictures");
        assert_eq!(encodes().round(), Ok(()));
        let mut wrong = encodes();
        wrong.pictures[1].made.map[0] ^= 1;
        assert!(wrong.round().is_err());
        let mut wrong = encodes();
        wrong.pictures[2].made.body[20] ^= 1;
        assert!(wrong.round().is_err());
        let mut wrong = encodes();
        wrong.pictures[3].wanted.wanted[7] ^= 1;
        assert!(wrong.round().is_err());
    }

    /// Each kind is what its name says, by the codes that the second program takes.
    #[test]
    fn codes() {
        for (kind, code) in Kind::ALL.into_iter().zip([0x0, 0xE, 0x7, 0xF, 0xB]) {
            let encodes = Encodes::new(kind, SMALL, 1).expect("pictures");
            let nibbles = encodes.pictures.iter().flat_map(|one| &one.made.map);
            let nibbles: Vec<u8> = nibbles.flat_map(|byte| [byte & 15, byte >> 4]).collect();
            let of_code = nibbles.iter().filter(|&&nibble| nibble == code).count();
            assert!(of_code * 10 > nibbles.len() * 9, "{}: {of_code}", kind.name());
        }
    }
}
