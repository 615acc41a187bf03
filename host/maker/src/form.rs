//! Blocks of every code and form, written as an encoder would (01's table of codes).

use crate::seeded::Seeded;
use crate::size::Size;

/// The forms that a block's data can have.
#[derive(Clone, Copy, Debug, PartialEq, Eq, PartialOrd, Ord)]
pub enum Form {
    /// Code 0.
    SameBlock,
    /// Code 1.
    Untouched,
    /// Code 2: from back, right of or below the block.
    BackAhead,
    /// Code 3: from back, left of or above the block.
    BackBehind,
    /// Code 4: from front, a byte for the vector.
    FrontNear,
    /// Code 5: from front, two bytes for the vector.
    FrontFar,
    /// Code 7, a bit a pixel.
    TwoColourFine,
    /// Code 7, a bit a 2x2.
    TwoColourCoarse,
    /// Code 8, quarters.
    TwoColourQuarters,
    /// Code 8, left and right halves.
    TwoColourLeftRight,
    /// Code 8, top and bottom halves.
    TwoColourTopBottom,
    /// Code 9, fields of one pixel.
    FourColour1x1,
    /// Code 9, fields of 2x2.
    FourColour2x2,
    /// Code 9, fields two wide.
    FourColour2x1,
    /// Code 9, fields two high.
    FourColour1x2,
    /// Code A, quarters.
    FourColourQuarters,
    /// Code A, left and right halves.
    FourColourLeftRight,
    /// Code A, top and bottom halves.
    FourColourTopBottom,
    /// Code B.
    Raw1x1,
    /// Code C.
    Raw2x2,
    /// Code D.
    Raw4x4,
    /// Code E.
    Solid,
    /// Code F.
    Dithered,
}

/// A block of a packet: its code in the map and its data.
#[derive(Clone, Debug, PartialEq, Eq)]
pub struct Block {
    /// The code; damage may make it 6.
    pub code: u8,
    /// The data bytes.
    pub data: Vec<u8>,
}

/// A piece of a block's data: colour pairs choose the form, the rest may be any bytes.
#[derive(Clone, Copy)]
enum Piece {
    /// P0 <= P1.
    Rising,
    /// P0 > P1.
    Falling,
    Bytes(usize),
}

impl Form {
    /// Every form.
    pub const ALL: [Form; 23] = [
        Form::SameBlock,
        Form::Untouched,
        Form::BackAhead,
        Form::BackBehind,
        Form::FrontNear,
        Form::FrontFar,
        Form::TwoColourFine,
        Form::TwoColourCoarse,
        Form::TwoColourQuarters,
        Form::TwoColourLeftRight,
        Form::TwoColourTopBottom,
        Form::FourColour1x1,
        Form::FourColour2x2,
        Form::FourColour2x1,
        Form::FourColour1x2,
        Form::FourColourQuarters,
        Form::FourColourLeftRight,
        Form::FourColourTopBottom,
        Form::Raw1x1,
        Form::Raw2x2,
        Form::Raw4x4,
        Form::Solid,
        Form::Dithered,
    ];

    /// The code of the form.
    pub fn code(self) -> u8 {
        match self {
            Form::SameBlock => 0x0,
            Form::Untouched => 0x1,
            Form::BackAhead => 0x2,
            Form::BackBehind => 0x3,
            Form::FrontNear => 0x4,
            Form::FrontFar => 0x5,
            Form::TwoColourFine | Form::TwoColourCoarse => 0x7,
            Form::TwoColourQuarters | Form::TwoColourLeftRight | Form::TwoColourTopBottom => 0x8,
            Form::FourColour1x1
            | Form::FourColour2x2
            | Form::FourColour2x1
            | Form::FourColour1x2 => 0x9,
            Form::FourColourQuarters | Form::FourColourLeftRight | Form::FourColourTopBottom => 0xA,
            Form::Raw1x1 => 0xB,
            Form::Raw2x2 => 0xC,
            Form::Raw4x4 => 0xD,
            Form::Solid => 0xE,
            Form::Dithered => 0xF,
        }
    }

    /// The form of a block by its bytes; `None` for code 6, and where bytes that choose the form are
    /// missing.
    pub fn of(code: u8, data: &[u8]) -> Option<Form> {
        let falls = |first: usize| Some(data.get(first)? > data.get(first + 1)?);
        Some(match code {
            0x0 => Form::SameBlock,
            0x1 => Form::Untouched,
            0x2 => Form::BackAhead,
            0x3 => Form::BackBehind,
            0x4 => Form::FrontNear,
            0x5 => Form::FrontFar,
            0x7 if falls(0)? => Form::TwoColourCoarse,
            0x7 => Form::TwoColourFine,
            0x8 if !falls(0)? => Form::TwoColourQuarters,
            0x8 if !falls(6)? => Form::TwoColourLeftRight,
            0x8 => Form::TwoColourTopBottom,
            0x9 => match (falls(0)?, falls(2)?) {
                (false, false) => Form::FourColour1x1,
                (false, true) => Form::FourColour2x2,
                (true, false) => Form::FourColour2x1,
                (true, true) => Form::FourColour1x2,
            },
            0xA if !falls(0)? => Form::FourColourQuarters,
            0xA if !falls(12)? => Form::FourColourLeftRight,
            0xA => Form::FourColourTopBottom,
            0xB => Form::Raw1x1,
            0xC => Form::Raw2x2,
            0xD => Form::Raw4x4,
            0xE => Form::Solid,
            0xF => Form::Dithered,
            _ => return None,
        })
    }

    /// A block of this form for the given place in a frame; `None` where no vector of a copy
    /// stays inside the frame.
    pub fn block(self, rng: &mut Seeded, size: Size, number: usize) -> Option<Block> {
        let reach = Reach::of(size, number);
        let data = match self {
            Form::BackAhead | Form::BackBehind | Form::FrontNear => {
                let inside = one_byte_vectors(self.code(), |v| reach.has(v));
                vec![*inside.get(rng.below(inside.len().max(1)))?]
            }
            Form::FrontFar => far_vector(rng, &reach),
            _ => self.pieces().iter().flat_map(|&piece| bytes_of(rng, piece)).collect(),
        };
        Some(Block { code: self.code(), data })
    }

    /// The data of a form without a vector. Quarters behind the first may have any colours, and
    /// so may the second pair of each half of code A.
    fn pieces(self) -> &'static [Piece] {
        use Piece::{Bytes, Falling, Rising};
        match self {
            Form::TwoColourFine => &[Rising, Bytes(8)],
            Form::TwoColourCoarse => &[Falling, Bytes(2)],
            Form::TwoColourQuarters => &[Rising, Bytes(2), Bytes(4), Bytes(4), Bytes(4)],
            Form::TwoColourLeftRight => &[Falling, Bytes(4), Rising, Bytes(4)],
            Form::TwoColourTopBottom => &[Falling, Bytes(4), Falling, Bytes(4)],
            Form::FourColour1x1 => &[Rising, Rising, Bytes(16)],
            Form::FourColour2x2 => &[Rising, Falling, Bytes(4)],
            Form::FourColour2x1 => &[Falling, Rising, Bytes(8)],
            Form::FourColour1x2 => &[Falling, Falling, Bytes(8)],
            Form::FourColourQuarters => &[Rising, Bytes(6), Bytes(8), Bytes(8), Bytes(8)],
            Form::FourColourLeftRight => &[Falling, Bytes(10), Rising, Bytes(10)],
            Form::FourColourTopBottom => &[Falling, Bytes(10), Falling, Bytes(10)],
            Form::Raw1x1 => &[Bytes(64)],
            Form::Raw2x2 => &[Bytes(16)],
            Form::Raw4x4 => &[Bytes(4)],
            Form::Solid => &[Bytes(1)],
            Form::Dithered => &[Bytes(2)],
            Form::SameBlock
            | Form::Untouched
            | Form::BackAhead
            | Form::BackBehind
            | Form::FrontNear
            | Form::FrontFar => &[],
        }
    }
}

/// A copy of code 2 to 5 that does not stay inside the frame, by a single pixel if it is code 5.
/// `None` only for a block from which every edge is out of reach.
pub fn outside_copy(rng: &mut Seeded, size: Size, number: usize) -> Option<Block> {
    let reach = Reach::of(size, number);
    let mut copies = Vec::new();
    for code in 2..=4 {
        let outside = one_byte_vectors(code, |v| !reach.has(v));
        if !outside.is_empty() {
            copies.push(Block { code, data: vec![rng.pick(&outside)] });
        }
    }
    for (dx, dy) in
        [(reach.left - 1, 0), (reach.right + 1, 0), (0, reach.up - 1), (0, reach.down + 1)]
    {
        if (-128..=127).contains(&dx) && (-128..=127).contains(&dy) {
            copies.push(Block { code: 5, data: vec![dx as u8, dy as u8] });
        }
    }
    if copies.is_empty() {
        return None;
    }
    Some(copies.swap_remove(rng.below(copies.len())))
}

/// How far a block may be copied from: the least and greatest offset in x and in y.
pub(crate) struct Reach {
    pub(crate) left: isize,
    pub(crate) right: isize,
    pub(crate) up: isize,
    pub(crate) down: isize,
}

impl Reach {
    pub(crate) fn of(size: Size, number: usize) -> Reach {
        let (x, y) = size.corner(number);
        Reach {
            left: -(x as isize),
            right: (size.width() - 8 - x) as isize,
            up: -(y as isize),
            down: (size.height() - 8 - y) as isize,
        }
    }

    pub(crate) fn has(&self, (dx, dy): (isize, isize)) -> bool {
        (self.left..=self.right).contains(&dx) && (self.up..=self.down).contains(&dy)
    }
}

/// The data bytes of codes 2 to 4 whose vector is wanted.
pub(crate) fn one_byte_vectors(code: u8, wanted: impl Fn((isize, isize)) -> bool) -> Vec<u8> {
    (0..=255).filter(|&byte| wanted(one_byte_vector(code, byte))).collect()
}

/// The vector of codes 2 to 4 (01's table).
fn one_byte_vector(code: u8, byte: u8) -> (isize, isize) {
    let b = isize::from(byte);
    let ahead = match b {
        0..56 => (8 + b % 7, b / 7),
        _ => ((b - 56) % 29 - 14, (b - 56) / 29 + 8),
    };
    match code {
        2 => ahead,
        3 => (-ahead.0, -ahead.1),
        _ => (b % 16 - 8, b / 16 - 8),
    }
}

/// The two bytes of a vector that stays inside the frame, as code 5 has them.
pub(crate) fn far_vector(rng: &mut Seeded, reach: &Reach) -> Vec<u8> {
    let dx = near_an_end(rng, reach.left.max(-128), reach.right.min(127));
    let dy = near_an_end(rng, reach.up.max(-128), reach.down.min(127));
    vec![dx as u8, dy as u8]
}

/// A block of the frame's rim: from it one edge is always in reach of a copy.
pub(crate) fn rim_block(rng: &mut Seeded, size: Size) -> usize {
    let Size { columns, rows } = size;
    let (column, row) = match rng.below(4) {
        0 => (0, rng.below(rows)),
        1 => (columns - 1, rng.below(rows)),
        2 => (rng.below(columns), 0),
        _ => (rng.below(columns), rows - 1),
    };
    row * columns + column
}

/// A number from `low` to `high`, often one of the two: copies that just touch an edge.
fn near_an_end(rng: &mut Seeded, low: isize, high: isize) -> isize {
    match rng.below(4) {
        0 => low,
        1 => high,
        _ => low + rng.below((high - low + 1) as usize) as isize,
    }
}

fn bytes_of(rng: &mut Seeded, piece: Piece) -> Vec<u8> {
    match piece {
        Piece::Bytes(length) => rng.bytes(length),
        Piece::Rising => {
            let (one, other) = (rng.byte(), rng.byte());
            // An equal pair is at the edge of the rule: it does not fall.
            let other = if rng.one_in(4) { one } else { other };
            vec![one.min(other), one.max(other)]
        }
        Piece::Falling => {
            let low = rng.byte().min(254);
            // So is a pair one apart.
            let high = if rng.one_in(4) { low + 1 } else { 255 - rng.byte() % (255 - low) };
            vec![high, low]
        }
    }
}
