//! One 8x8 block: its data length, its motion vector, and the source of each of its pixels
//! (01, "Packet, blocks, place"; the layouts are those of 000's text, the order of fields in a byte
//! is that of 02, W3).
//!
//! `data` always starts at the block's first data byte; what lies behind the block is not read.

use crate::frame::{FrameSize, BLOCK_PIXELS, BLOCK_SIDE};

/// Where one pixel of a block is read from.
#[derive(Clone, Copy, Debug, PartialEq, Eq)]
pub enum Source {
    /// A byte of the block's data, counted from the block's first.
    Data(usize),
    /// A pixel of the front picture, counted row by row.
    Front(usize),
    /// A pixel of the back picture, counted row by row.
    Back(usize),
}

/// The two pictures that a frame is made from.
#[derive(Clone, Copy, Debug, PartialEq, Eq)]
pub enum Picture {
    /// "Front" (01): the shown picture. Drawing never changes it.
    Front,
    /// "Back" (01): the picture two frames old that is drawn on.
    Back,
}

/// A block copied whole from a picture, at a motion vector from its own corner.
#[derive(Clone, Copy, Debug, PartialEq, Eq)]
pub struct BlockCopy {
    /// The picture copied from.
    pub from: Picture,
    /// Pixels to the right, negative to the left.
    pub dx: isize,
    /// Pixels down, negative up.
    pub dy: isize,
}

impl BlockCopy {
    /// Whether the copied 8x8 lies inside the picture, judged in x and in y (01): by one linear
    /// address, a copy past the right edge would read the next line.
    pub fn is_inside(&self, size: FrameSize, x: usize, y: usize) -> bool {
        fits(x, self.dx, size.width()) && fits(y, self.dy, size.height())
    }

    /// The pixel that a pixel of the block at (x, y) is copied from; none left of, right of or
    /// above a picture of so many columns of blocks.
    fn source(&self, columns: usize, x: usize, y: usize, pixel: Pixel) -> Option<Source> {
        let width = columns.checked_mul(BLOCK_SIDE)?;
        let column = x.checked_add(pixel.column)?.checked_add_signed(self.dx)?;
        let row = y.checked_add(pixel.row)?.checked_add_signed(self.dy)?;
        if column >= width {
            return None;
        }
        let index = row.checked_mul(width)?.checked_add(column)?;
        Some(match self.from {
            Picture::Front => Source::Front(index),
            Picture::Back => Source::Back(index),
        })
    }
}

/// Whether eight pixels from `corner` moved by `offset` lie inside `extent`.
pub(crate) fn fits(corner: usize, offset: isize, extent: usize) -> bool {
    corner
        .checked_add_signed(offset)
        .and_then(|start| start.checked_add(BLOCK_SIDE))
        .is_some_and(|end| end <= extent)
}

/// Data bytes of a block. `None` for a code that is not taken, and where the bytes that choose
/// the block's form are missing.
pub fn length(code: u8, data: &[u8]) -> Option<usize> {
    Some(match code {
        0x0 | 0x1 => 0,
        0x2..=0x4 => 1,
        0x5 => 2,
        0x7 if falling(data, 0)? => 4,
        0x7 => 10,
        0x8 if falling(data, 0)? => 12,
        0x8 => 16,
        0x9 => match (falling(data, 0)?, falling(data, 2)?) {
            (false, false) => 20,
            (false, true) => 8,
            (true, _) => 12,
        },
        0xA if falling(data, 0)? => 24,
        0xA => 32,
        0xB => 64,
        0xC => 16,
        0xD => 4,
        0xE => 1,
        0xF => 2,
        _ => return None,
    })
}

/// The copy that codes 0 to 5 make, `None` for the others. Code 1 keeps what stands in back.
pub fn copy(code: u8, data: &[u8]) -> Option<BlockCopy> {
    let byte = |index: usize| data.get(index).copied();
    let (from, (dx, dy)) = match code {
        0x0 => (Picture::Front, (0, 0)),
        0x1 => (Picture::Back, (0, 0)),
        0x2 => (Picture::Back, right_and_down(byte(0)?)),
        0x3 => (Picture::Back, left_and_up(byte(0)?)),
        0x4 => (Picture::Front, around(byte(0)?)),
        0x5 => (Picture::Front, (signed(byte(0)?), signed(byte(1)?))),
        _ => return None,
    };
    Some(BlockCopy { from, dx, dy })
}

/// The vector of code 2: to the right of the block, or below it.
pub(crate) fn right_and_down(byte: u8) -> (isize, isize) {
    let b = isize::from(byte);
    if b < 56 {
        (8 + b % 7, b / 7)
    } else {
        (-14 + (b - 56) % 29, 8 + (b - 56) / 29)
    }
}

/// The vector of code 3: that of code 2 negated.
pub(crate) fn left_and_up(byte: u8) -> (isize, isize) {
    let (dx, dy) = right_and_down(byte);
    (-dx, -dy)
}

/// The vector of code 4: x in the low nibble, y in the high one, both less 8.
pub(crate) fn around(byte: u8) -> (isize, isize) {
    (isize::from(byte & 0x0F) - 8, isize::from(byte >> 4) - 8)
}

/// A byte of code 5's vector, in two's complement.
pub(crate) fn signed(byte: u8) -> isize {
    isize::from(byte as i8)
}

/// The source of pixel `i` (row by row, 0 to 63) of a block whose left and top pixel is (x, y), in a
/// picture of so many columns of blocks. `None` where the rules name none: a code not taken, data
/// short, `i` outside the block, or a copied pixel left of, right of or above the picture. (Below it
/// needs the rows: `is_inside`.)
pub fn source(
    columns: usize,
    code: u8,
    data: &[u8],
    x: usize,
    y: usize,
    i: usize,
) -> Option<Source> {
    if i >= BLOCK_PIXELS || data.len() < length(code, data)? {
        return None;
    }
    let pixel = Pixel { column: i % BLOCK_SIDE, row: i / BLOCK_SIDE };
    match copy(code, data) {
        Some(copy) => copy.source(columns, x, y, pixel),
        None => colour_byte(code, data, pixel).map(Source::Data),
    }
}

/// The data byte that holds the colour of a pixel, for codes 7 to F.
fn colour_byte(code: u8, data: &[u8], pixel: Pixel) -> Option<usize> {
    match code {
        0x7 => two_colours(data, pixel),
        0x8 => parts(data, pixel, TWO_COLOUR_PARTS),
        0x9 => four_colours(data, pixel),
        0xA => parts(data, pixel, FOUR_COLOUR_PARTS),
        0xB => Some(pixel.field(BLOCK_SIDE, 1, 1)),
        0xC => Some(pixel.field(BLOCK_SIDE, 2, 2)),
        0xD => Some(pixel.field(BLOCK_SIDE, 4, 4)),
        0xE => Some(0),
        0xF => Some((pixel.column + pixel.row) % 2),
        _ => None,
    }
}

/// Code 7: P0 P1 and a bit a pixel, or, if they fall, a bit a 2x2.
fn two_colours(data: &[u8], pixel: Pixel) -> Option<usize> {
    let field = if falling(data, 0)? {
        pixel.field(BLOCK_SIDE, 2, 2)
    } else {
        pixel.field(BLOCK_SIDE, 1, 1)
    };
    chosen(data, 0, 2, field)
}

/// Code 9: P0 to P3 and two bits a field, whose width and height the two pairs choose.
fn four_colours(data: &[u8], pixel: Pixel) -> Option<usize> {
    let (width, height) = match (falling(data, 0)?, falling(data, 2)?) {
        (false, false) => (1, 1),
        (false, true) => (2, 2),
        (true, false) => (2, 1),
        (true, true) => (1, 2),
    };
    chosen(data, 0, 4, pixel.field(BLOCK_SIDE, width, height))
}

/// What tells codes 8 and A apart: colours of a part, and the bytes of a quarter and of a half
/// (its colours and then one or two bits for each pixel).
#[derive(Clone, Copy)]
struct PartLayout {
    colours: usize,
    quarter: usize,
    half: usize,
}

const TWO_COLOUR_PARTS: PartLayout = PartLayout { colours: 2, quarter: 4, half: 6 };
const FOUR_COLOUR_PARTS: PartLayout = PartLayout { colours: 4, quarter: 8, half: 12 };

/// Codes 8 and A: four quarters, or, if P0 P1 fall, two halves; left and right unless the second
/// half's first pair falls, too.
fn parts(data: &[u8], pixel: Pixel, layout: PartLayout) -> Option<usize> {
    let PartLayout { colours, quarter, half } = layout;
    if !falling(data, 0)? {
        let (number, inner) = pixel.in_quarter();
        chosen(data, number * quarter, colours, inner.field(4, 1, 1))
    } else if !falling(data, half)? {
        let (number, inner) = pixel.in_left_or_right();
        chosen(data, number * half, colours, inner.field(4, 1, 1))
    } else {
        let (number, inner) = pixel.in_top_or_bottom();
        chosen(data, number * half, colours, inner.field(BLOCK_SIDE, 1, 1))
    }
}

/// The colour byte that a field chooses in a part: the part's colours come first, its fields
/// behind them. A bit chooses of two colours, two bits of four.
fn chosen(data: &[u8], part: usize, colours: usize, field: usize) -> Option<usize> {
    let bits = if colours == 2 { 1 } else { 2 };
    let fields = data.get(part + colours..)?;
    Some(part + field_value(fields, bits, field)?)
}

/// The value of a field of one or two bits. Fields are taken from the low end of each byte, bytes in
/// order (02, W3); this is the only place that knows.
fn field_value(bytes: &[u8], bits: usize, field: usize) -> Option<usize> {
    let per_byte = 8 / bits;
    let byte = bytes.get(field / per_byte)?;
    Some(usize::from(*byte) >> (field % per_byte * bits) & ((1 << bits) - 1))
}

/// Whether the colour pair at `first` is falling, which is how a block tells its form. An equal
/// pair is not.
fn falling(data: &[u8], first: usize) -> Option<bool> {
    Some(data.get(first)? > data.get(first + 1)?)
}

/// A pixel by its column and row in a block or a part of one.
#[derive(Clone, Copy)]
struct Pixel {
    column: usize,
    row: usize,
}

impl Pixel {
    /// The number of the field that covers the pixel; fields run left to right, then down, in a
    /// part of the given width.
    fn field(self, part_width: usize, field_width: usize, field_height: usize) -> usize {
        let fields_a_row = part_width / field_width;
        self.row / field_height * fields_a_row + self.column / field_width
    }

    /// Quarters come top-left, bottom-left, top-right, bottom-right (01; 000's picture of code 8
    /// has another order, its text this one).
    fn in_quarter(self) -> (usize, Pixel) {
        let number = self.column / 4 * 2 + self.row / 4;
        let inner = Pixel { column: self.column % 4, row: self.row % 4 };
        (number, inner)
    }

    fn in_left_or_right(self) -> (usize, Pixel) {
        let inner = Pixel { column: self.column % 4, row: self.row };
        (self.column / 4, inner)
    }

    fn in_top_or_bottom(self) -> (usize, Pixel) {
        let inner = Pixel { column: self.column, row: self.row % 4 };
        (self.row / 4, inner)
    }
}
