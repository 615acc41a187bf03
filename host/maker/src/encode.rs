//! An encoder: a picture as a packet that draws it exactly.

use crate::form::{one_byte_vectors, Block, Form, Reach};
use crate::packet::Draft;
use crate::size::Size;

/// The pixels of a block, row by row.
type Square = [u8; 64];

/// The packet that draws `wanted` on `back`. Each block takes the first form that gives just its
/// pixels, of these, which are tried in this order, never one of fewer data bytes after one of more:
/// codes 1, 0, E, 2, 3, 4, F, 5 and D, 7 with a bit a pixel, C, 8 in quarters, 9 with fields of one
/// pixel, A in quarters, B. The other forms of 7 to A are not tried.
pub fn packet(size: Size, wanted: &[u8], front: &[u8], back: &[u8]) -> Draft {
    let blocks = (0..size.blocks()).map(|number| {
        let (x, y) = size.corner(number);
        let pixels = std::array::from_fn(|i| wanted[(y + i / 8) * size.width() + x + i % 8]);
        Wanted { size, number, pixels }.encoded(wanted, front, back)
    });
    Draft { size, blocks: blocks.collect(), spare: 0, over: Vec::new() }
}

/// A block to encode.
struct Wanted {
    size: Size,
    number: usize,
    pixels: Square,
}

impl Wanted {
    fn encoded(&self, wanted: &[u8], front: &[u8], back: &[u8]) -> Block {
        let pixels = &self.pixels;
        let unmoved = |form, picture| self.is_copy(picture, (0, 0)).then(|| made(form, Vec::new()));
        unmoved(Form::Untouched, back)
            .or_else(|| unmoved(Form::SameBlock, front))
            .or_else(|| cells(Form::Solid, pixels, 8))
            // Code 2 reads blocks that are not drawn yet, code 3 those that are.
            .or_else(|| self.near(Form::BackAhead, back))
            .or_else(|| self.near(Form::BackBehind, wanted))
            .or_else(|| self.near(Form::FrontNear, front))
            .or_else(|| dithered(pixels))
            .or_else(|| self.far(front))
            .or_else(|| cells(Form::Raw4x4, pixels, 4))
            .or_else(|| pattern(Form::TwoColourFine, pixels, 8, 2))
            .or_else(|| cells(Form::Raw2x2, pixels, 2))
            .or_else(|| pattern(Form::TwoColourQuarters, pixels, 4, 2))
            .or_else(|| pattern(Form::FourColour1x1, pixels, 8, 4))
            .or_else(|| pattern(Form::FourColourQuarters, pixels, 4, 4))
            .unwrap_or_else(|| made(Form::Raw1x1, pixels.to_vec()))
    }

    /// Whether the block stands in a picture, moved by this vector.
    fn is_copy(&self, picture: &[u8], (dx, dy): (isize, isize)) -> bool {
        let (x, y) = self.size.corner(self.number);
        let (x, y) = (x.wrapping_add_signed(dx), y.wrapping_add_signed(dy));
        let pixel = |i: usize| picture[(y + i / 8) * self.size.width() + x + i % 8];
        self.reach().has((dx, dy)) && (0..64).all(|i| pixel(i) == self.pixels[i])
    }

    fn reach(&self) -> Reach {
        Reach::of(self.size, self.number)
    }

    /// A copy by codes 2 to 4.
    fn near(&self, form: Form, picture: &[u8]) -> Option<Block> {
        let bytes = one_byte_vectors(form.code(), |vector| self.is_copy(picture, vector));
        bytes.first().map(|&byte| made(form, vec![byte]))
    }

    /// A copy by code 5.
    fn far(&self, front: &[u8]) -> Option<Block> {
        let Reach { left, right, up, down } = self.reach();
        let mut vectors = (up.max(-128)..=down.min(127))
            .flat_map(|dy| (left.max(-128)..=right.min(127)).map(move |dx| (dx, dy)));
        let (dx, dy) = vectors.find(|&vector| self.is_copy(front, vector))?;
        Some(made(Form::FrontFar, vec![dx as u8, dy as u8]))
    }
}

fn made(form: Form, data: Vec<u8>) -> Block {
    Block { code: form.code(), data }
}

/// Codes C to E: squares of one colour each.
fn cells(form: Form, pixels: &Square, side: usize) -> Option<Block> {
    let first_of = |i: usize| i / 8 / side * side * 8 + i % 8 / side * side;
    let is_uniform = (0..64).all(|i| pixels[i] == pixels[first_of(i)]);
    let firsts = (0..64).filter(|&i| first_of(i) == i).map(|i| pixels[i]);
    is_uniform.then(|| made(form, firsts.collect()))
}

/// Code F: two colours as on a chessboard.
fn dithered(pixels: &Square) -> Option<Block> {
    let is_dithered = (0..64).all(|i| pixels[i] == pixels[(i / 8 + i % 8) % 2]);
    is_dithered.then(|| made(Form::Dithered, pixels[..2].to_vec()))
}

/// Codes 7 to A with a field a pixel: the block, or each quarter of it, in at most `most` colours.
/// They are given rising, which chooses this form.
fn pattern(form: Form, pixels: &Square, side: usize, most: usize) -> Option<Block> {
    let quarters = [(0, 0), (0, 4), (4, 0), (4, 4)];
    let parts = if side == 8 { &quarters[..1] } else { &quarters };
    let bits = most / 2;
    let mut data = Vec::new();
    for (left, top) in parts {
        let pixel = |i: usize| pixels[(top + i / side) * 8 + left + i % side];
        let mut colours: Vec<u8> = (0..side * side).map(pixel).collect();
        colours.sort_unstable();
        colours.dedup();
        if colours.len() > most {
            return None;
        }
        let field = |i| colours.partition_point(|&colour| colour < pixel(i)) as u8;
        let fields: Vec<u8> = (0..side * side).map(field).collect();
        colours.resize(most, colours[colours.len() - 1]);
        data.extend(colours);
        // The first field of a byte is at its low end (02, W3).
        let byte = |fields: &[u8]| fields.iter().rev().fold(0, |byte, field| byte << bits | field);
        data.extend(fields.chunks(8 / bits).map(byte));
    }
    Some(made(form, data))
}
