//! One 8x8 block of a film with true colour (02, W7): what it takes of the packet's two parts, and what
//! its pixels become.
//!
//! Blocks are read one after the other, each from where the one before ended. A colour is a word, low byte
//! first, and has 15 bits. The 16th one, of a colour that begins a pair, tells the block's form where
//! 8-bit films look at the order of the pair.

use crate::block::{self, around, left_and_up, right_and_down, signed};
use crate::frame::{FrameSize, BLOCK_PIXELS, BLOCK_SIDE};

/// The bits of a colour. Every stored pixel has no other.
const COLOUR: u16 = 0x7FFF;
/// The bit that stands for a falling pair.
const FALLING: u16 = 0x8000;

/// The pictures that a block is copied from.
#[derive(Clone, Copy, Debug, PartialEq, Eq)]
pub enum Picture {
    /// The shown picture.
    Last,
    /// The picture that is drawn on, with what is drawn already.
    New,
    /// The picture before the shown one.
    Oldest,
}

/// What the pixels of a block become.
#[derive(Clone, Debug, PartialEq, Eq)]
pub enum Content {
    /// Those of a picture, this far to the right and down.
    Copied(Picture, (isize, isize)),
    /// These colours, row by row.
    Coloured(Box<[u16; BLOCK_PIXELS]>),
}

impl Content {
    /// Whether a copied 8x8 lies inside the picture, judged in x and in y (01).
    pub fn is_inside(&self, size: FrameSize, x: usize, y: usize) -> bool {
        match self {
            Content::Copied(_, (dx, dy)) => {
                block::fits(x, *dx, size.width()) && block::fits(y, *dy, size.height())
            }
            Content::Coloured(_) => true,
        }
    }
}

/// A pixel as it is stored: "every stored pixel has it cleared" (02).
pub fn stored(colour: u16) -> u16 {
    colour & COLOUR
}

/// What is left of a packet's two parts.
#[derive(Clone, Copy, Debug, PartialEq, Eq)]
pub struct Parts<'a> {
    /// The part behind the offset word.
    pub first: &'a [u8],
    /// The part where the offsets of codes 2 to 4 are.
    pub second: &'a [u8],
}

impl<'a> Parts<'a> {
    /// Takes a block of this code; none where a part is too short.
    pub fn block(&mut self, code: u8) -> Option<Content> {
        Some(match code {
            0x0 => Content::Copied(Picture::Last, (0, 0)),
            0x2 => Content::Copied(Picture::Oldest, right_and_down(self.offset()?)),
            0x3 => Content::Copied(Picture::New, left_and_up(self.offset()?)),
            0x4 => Content::Copied(Picture::Last, around(self.offset()?)),
            0x5 => Content::Copied(Picture::Last, self.vector()?),
            0x6 => Content::Copied(Picture::Oldest, self.vector()?),
            0x7 => self.two_colours()?,
            0x8 => self.areas(2)?,
            0x9 => self.four_colours()?,
            0xA => self.areas(4)?,
            0xB => self.cells(1)?,
            0xC => self.cells(2)?,
            0xD => self.cells(4)?,
            0xE => self.cells(8)?,
            // Codes 1 and F; there is no higher one.
            _ => Content::Copied(Picture::Oldest, (0, 0)),
        })
    }

    /// A byte of the second part.
    fn offset(&mut self) -> Option<u8> {
        let (&byte, behind) = self.second.split_first()?;
        self.second = behind;
        Some(byte)
    }

    /// So many bytes of the first part.
    fn bytes(&mut self, count: usize) -> Option<&'a [u8]> {
        let bytes = self.first.get(..count)?;
        self.first = &self.first[count..];
        Some(bytes)
    }

    /// So many colours.
    fn colours(&mut self, count: usize) -> Option<Vec<u16>> {
        let words = self.bytes(2 * count)?.chunks_exact(2);
        Some(words.map(|word| u16::from_le_bytes([word[0], word[1]])).collect())
    }

    /// The vector of codes 5 and 6.
    fn vector(&mut self) -> Option<(isize, isize)> {
        let bytes = self.bytes(2)?;
        Some((signed(bytes[0]), signed(bytes[1])))
    }

    /// Code 7: a bit a pixel, or, if the pair falls, a bit a 2x2.
    fn two_colours(&mut self) -> Option<Content> {
        let colours = self.colours(2)?;
        let (side, bytes) = if falls(colours[0]) { (2, 2) } else { (1, 8) };
        let mut paint = Paint::default();
        paint.fields(WHOLE, (side, side), &colours, self.bytes(bytes)?);
        Some(paint.done())
    }

    /// Code 9: two bits a field, whose size the two pairs tell.
    fn four_colours(&mut self) -> Option<Content> {
        let colours = self.colours(4)?;
        let (field, bytes) = match (falls(colours[0]), falls(colours[2])) {
            (false, false) => ((1, 1), 16),
            (false, true) => ((2, 2), 4),
            (true, false) => ((2, 1), 8),
            (true, true) => ((1, 2), 8),
        };
        let mut paint = Paint::default();
        paint.fields(WHOLE, field, &colours, self.bytes(bytes)?);
        Some(paint.done())
    }

    /// Codes 8 and A: four quarters with their colours each, or, if the first pair falls, two halves.
    fn areas(&mut self, count: usize) -> Option<Content> {
        let first = self.colours(count)?;
        let quarters = !falls(first[0]);
        let (areas, pixels) = if quarters { (4, 16) } else { (2, 32) };
        let bytes = pixels * bits_of(count) / 8;
        let mut taken = vec![(first, self.bytes(bytes)?)];
        for _ in 1..areas {
            taken.push((self.colours(count)?, self.bytes(bytes)?));
        }
        let areas = match (quarters, falls(taken[1].0[0])) {
            (true, _) => &QUARTERS[..],
            (false, false) => &LEFT_AND_RIGHT,
            (false, true) => &TOP_AND_BOTTOM,
        };
        let mut paint = Paint::default();
        for (&area, (colours, bytes)) in areas.iter().zip(&taken) {
            paint.fields(area, (1, 1), colours, bytes);
        }
        Some(paint.done())
    }

    /// Codes B to E: a colour for each square of this side.
    fn cells(&mut self, side: usize) -> Option<Content> {
        let across = BLOCK_SIDE / side;
        let colours = self.colours(across * across)?;
        let mut paint = Paint::default();
        for (number, &colour) in colours.iter().enumerate() {
            paint.fill((number % across * side, number / across * side), (side, side), colour);
        }
        Some(paint.done())
    }
}

/// "Falling-pair tests replaced by the high bit of the pair's first pixel" (02).
fn falls(first: u16) -> bool {
    first & FALLING != 0
}

/// The bits of a field that picks one of so many colours.
fn bits_of(colours: usize) -> usize {
    if colours == 2 {
        1
    } else {
        2
    }
}

/// A part of a block: left, top and width.
type Area = (usize, usize, usize);

const WHOLE: Area = (0, 0, 8);
/// Top-left, bottom-left, top-right, bottom-right (01).
const QUARTERS: [Area; 4] = [(0, 0, 4), (0, 4, 4), (4, 0, 4), (4, 4, 4)];
const LEFT_AND_RIGHT: [Area; 2] = [(0, 0, 4), (4, 0, 4)];
const TOP_AND_BOTTOM: [Area; 2] = [(0, 0, 8), (0, 4, 8)];

/// A block that is being painted.
struct Paint([u16; BLOCK_PIXELS]);

impl Default for Paint {
    fn default() -> Paint {
        Paint([0; BLOCK_PIXELS])
    }
}

impl Paint {
    /// The fields of an area, left to right, then down, each of this width and height. They come from the
    /// low end of each byte (02, W3).
    fn fields(
        &mut self,
        (left, top, width): Area,
        field: (usize, usize),
        colours: &[u16],
        bytes: &[u8],
    ) {
        let (bits, across) = (bits_of(colours.len()), width / field.0);
        let values = bytes.iter().flat_map(|&byte| {
            (0..8).step_by(bits).map(move |low| usize::from(byte >> low) & ((1 << bits) - 1))
        });
        for (number, value) in values.enumerate() {
            let corner = (left + number % across * field.0, top + number / across * field.1);
            self.fill(corner, field, colours[value]);
        }
    }

    fn fill(&mut self, (left, top): (usize, usize), (width, height): (usize, usize), colour: u16) {
        for row in self.0.chunks_mut(BLOCK_SIDE).skip(top).take(height) {
            row[left..left + width].fill(colour);
        }
    }

    fn done(self) -> Content {
        Content::Coloured(Box::new(self.0))
    }
}
