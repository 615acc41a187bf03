//! Frames of Microsoft Video 1 with 8-bit pixels (source document 001; 02, W12).

use crate::frame::FrameSize;
use crate::refusal::{self, Refusal};

/// Width and height of a block in pixels.
const SIDE: usize = 4;
/// What stands behind the last block.
const END_MARK: [u8; 2] = [0, 0];

/// The flags of a block as 001 lays them out, the top row first: the byte, a or b, and the bit.
const FLAGS: [[(usize, u8); SIDE]; SIDE] = [
    [(1, 4), (1, 5), (1, 6), (1, 7)],
    [(1, 0), (1, 1), (1, 2), (1, 3)],
    [(0, 4), (0, 5), (0, 6), (0, 7)],
    [(0, 0), (0, 1), (0, 2), (0, 3)],
];
/// The quads as 001 lays them out, quad 1 counted as 0.
const QUADS: [[usize; 2]; 2] = [[2, 3], [0, 1]];

/// A block's pixels, the top row first.
type Pixels = [[u8; SIDE]; SIDE];

/// What a code says.
#[derive(Clone, Copy, Debug, PartialEq, Eq)]
enum Code {
    /// So many blocks stay as they are.
    Skip(usize),
    /// A block of one, two or eight colours.
    Block(Pixels),
}

/// Draws a frame of `columns` by `rows` blocks of 8x8 on a picture: refusals 6 and 8, the first met of 24 and
/// 25, then 26.
pub fn decode(columns: usize, rows: usize, data: &[u8], picture: &mut [u8]) -> Result<(), Refusal> {
    let size = FrameSize::new(columns, rows)?;
    if picture.len() < size.pixels() {
        return Err(Refusal::new(refusal::LENT));
    }
    let across = size.width() / SIDE;
    for (number, block) in blocks(data, across * (size.height() / SIDE))?.into_iter().enumerate() {
        let (left, above) = (number % across * SIDE, number / across * SIDE);
        let top = size.height() - SIDE - above; // the rows of blocks run from the bottom up
        for (y, row) in block.iter().flatten().enumerate() {
            let start = (top + y) * size.width() + left;
            picture[start..start + SIDE].copy_from_slice(row);
        }
    }
    Ok(())
}

/// What a frame gives each of so many blocks; none where it is skipped.
fn blocks(mut data: &[u8], count: usize) -> Result<Vec<Option<Pixels>>, Refusal> {
    let mut blocks = Vec::new();
    while blocks.len() < count {
        let (code, rest) = next_code(data).ok_or(Refusal::new(refusal::FRAME_SHORT))?;
        data = rest;
        match code {
            Code::Block(pixels) => blocks.push(Some(pixels)),
            Code::Skip(skipped) => blocks.extend(vec![None; skipped]),
        }
        if blocks.len() > count {
            return Err(Refusal::new(refusal::SKIP_OUTSIDE));
        }
    }
    if data == END_MARK {
        Ok(blocks)
    } else {
        Err(Refusal::new(refusal::END_MARK))
    }
}

/// The code that data begins with, and what stands behind it; none where the data ends before the code.
fn next_code(data: &[u8]) -> Option<(Code, &[u8])> {
    let (&[a, b], behind) = data.split_first_chunk()?;
    match b {
        0x84..=0x87 => {
            let skipped = usize::from(b - 0x84) * 256 + usize::from(a);
            Some((Code::Skip(skipped), behind))
        }
        0x00..=0x7F => {
            let (&[color_a, color_b], behind) = behind.split_first_chunk()?;
            Some((Code::Block(flagged([a, b], [[color_a, color_b]; 4])), behind))
        }
        0x90..=0xFF => {
            let (&[a1, b1, a2, b2, a3, b3, a4, b4], behind) = behind.split_first_chunk()?;
            let quads = [[a1, b1], [a2, b2], [a3, b3], [a4, b4]];
            Some((Code::Block(flagged([a, b], quads)), behind))
        }
        0x80..=0x83 | 0x88..=0x8F => Some((Code::Block([[a; SIDE]; SIDE]), behind)),
    }
}

/// A block's pixels by their flags: the first colour of the quad where the flag is 1, else the second.
fn flagged(flags: [u8; 2], quads: [[u8; 2]; 4]) -> Pixels {
    let pixel = |y: usize, x: usize| {
        let (byte, bit) = FLAGS[y][x];
        let [first, second] = quads[QUADS[y / 2][x / 2]];
        match flags[byte] >> bit & 1 {
            1 => first,
            _ => second,
        }
    };
    std::array::from_fn(|y| std::array::from_fn(|x| pixel(y, x)))
}
