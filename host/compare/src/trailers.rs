//! Frames of Microsoft Video 1 (02, W12): two programs give the same answer and leave the same bytes, on frames
//! that are valid, damaged or hostile, for sizes that are legal or not, and on pictures that are exactly as
//! long as they must be, longer, or too short.

use crate::decoder::{Proved, Second};
use maker::trailers::{self, Codes, Damage};
use maker::{Seeded, Size};
use reference::{video1, Refusal};

/// A program that draws such frames.
pub trait Trailers {
    /// Draws a frame on the picture.
    fn video1(
        &self,
        columns: usize,
        rows: usize,
        data: &[u8],
        picture: &mut [u8],
    ) -> Result<(), Refusal>;
}

impl Trailers for Proved {
    fn video1(
        &self,
        columns: usize,
        rows: usize,
        data: &[u8],
        picture: &mut [u8],
    ) -> Result<(), Refusal> {
        mve::video1(columns, rows, data, picture).map_err(|error| Refusal::new(error.number()))
    }
}

impl Trailers for Second {
    fn video1(
        &self,
        columns: usize,
        rows: usize,
        data: &[u8],
        picture: &mut [u8],
    ) -> Result<(), Refusal> {
        video1::decode(columns, rows, data, picture)
    }
}

/// What the data of a frame is.
#[derive(Clone, Copy, Debug, PartialEq, Eq)]
pub enum Made {
    /// Accepted, by construction.
    Valid,
    /// Refused by this number, by construction.
    Faulty(u8),
    /// Any bytes.
    Hostile,
}

/// A frame, and pictures to draw it on.
#[derive(Clone, Debug)]
pub struct Question {
    /// The size that the data is made for.
    pub size: Size,
    /// The columns that are asked for: those of the size, or none that is legal.
    pub columns: usize,
    /// The rows, likewise.
    pub rows: usize,
    /// The frame.
    pub data: Vec<u8>,
    /// What it is.
    pub made: Made,
    /// Bytes of each picture.
    pub lengths: Vec<usize>,
}

impl Question {
    /// Whether the size that is asked for is not the one that the data is made for.
    pub fn is_size_wrong(&self) -> bool {
        (self.columns, self.rows) != (self.size.columns, self.size.rows)
    }
}

/// The question of this number.
pub fn question(number: u64) -> Question {
    let rng = &mut Seeded::new(number);
    let size = if rng.one_in(50) { Size::any(rng) } else { Size::small(rng) };
    let (data, made) = match number % 8 {
        0 | 1 => {
            let kind = rng.pick(&[Codes::One, Codes::Two, Codes::Eight, Codes::Skips, Codes::Mix]);
            (trailers::valid(rng, size, kind), Made::Valid)
        }
        2 => {
            let before = rng.bytes(size.pixels());
            let wanted = trailers::picture(rng, size, &before);
            let data = trailers::encoded(rng, size, &before, &wanted);
            (data.expect("blocks of few colours"), Made::Valid)
        }
        3..=6 => {
            let damage = rng.pick(&Damage::ALL);
            (trailers::damaged(rng, size, damage), Made::Faulty(damage.number()))
        }
        _ => (trailers::hostile(rng, size), Made::Hostile),
    };
    let far = rng.number() as usize;
    let (columns, rows) = match rng.below(16) {
        0 => (0, size.rows),
        1 => (size.columns, 0),
        2 => (81, size.rows),
        3 => (size.columns, 61),
        4 => (far.max(81), far.max(61)),
        _ => (size.columns, size.rows),
    };
    let pixels = size.pixels();
    let lengths = vec![pixels, pixels - 1, pixels + rng.between(1, 100), rng.below(pixels)];
    Question { size, columns, rows, data, made, lengths }
}

/// What differs, and on a picture of which length.
#[derive(Clone, Debug, PartialEq, Eq)]
pub struct Differs {
    /// Bytes of the picture.
    pub length: usize,
    /// Both answers, with the first index at which the pictures differ.
    pub answers: [Result<(), Refusal>; 2],
    /// That index.
    pub index: Option<usize>,
}

/// What a program answers, and what it leaves of a picture that held other bytes before.
fn left(
    program: &dyn Trailers,
    question: &Question,
    length: usize,
) -> (Result<(), Refusal>, Vec<u8>) {
    let mut picture: Vec<u8> = (0..length).map(|i| (7 * i + i / 251 + 3) as u8).collect();
    let Question { columns, rows, data, .. } = question;
    let answer = program.video1(*columns, *rows, data, &mut picture);
    (answer, picture)
}

/// Compares two programs on a question; their answers, one for each picture.
pub fn compare(
    first: &dyn Trailers,
    second: &dyn Trailers,
    question: &Question,
) -> Result<Vec<Result<(), Refusal>>, Box<Differs>> {
    let compared = question.lengths.iter().map(|&length| {
        let [one, other] = [first, second].map(|program| left(program, question, length));
        let index = one.1.iter().zip(&other.1).position(|(one, other)| one != other);
        match one.0 == other.0 && index.is_none() {
            true => Ok(one.0),
            false => Err(Box::new(Differs { length, answers: [one.0, other.0], index })),
        }
    });
    compared.collect()
}
