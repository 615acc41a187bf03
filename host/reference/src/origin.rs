//! Where the value of a pixel comes from (02, W9).

use crate::block::{self, Source};
use crate::frame::{FrameSize, BLOCK_SIDE};
use crate::packet::{accepted_blocks, CallForm};
use crate::refusal::{self, Refusal};

/// The code that copies from the new picture: its vector leads to blocks that are drawn already.
const FROM_NEW: u8 = 0x3;

/// What is told of a pixel.
#[derive(Clone, Copy, Debug, PartialEq, Eq)]
pub struct Traced {
    /// The number of its block.
    pub block: usize,
    /// The block's code.
    pub code: u8,
    /// What gave it its value.
    pub origin: Origin,
}

/// What gave a pixel its value.
#[derive(Clone, Copy, Debug, PartialEq, Eq)]
pub enum Origin {
    /// A byte of the packet, counted from its start.
    Byte(usize),
    /// The pixel (x, y) of front.
    Front((usize, usize)),
    /// The pixel (x, y) of back as it was lent.
    Back((usize, usize)),
    /// The pixel (x, y) of the new picture.
    New((usize, usize)),
}

/// Tells where the pixel at (x, y) of a packet's picture comes from. The refusals are those of a check
/// with 8 in its place, then 22.
#[allow(clippy::too_many_arguments)] // a packet, the pictures and a position, each a slice or number
pub fn origin(
    columns: usize,
    rows: usize,
    map: &[u8],
    data: &[u8],
    front: &[u8],
    back: &[u8],
    x: usize,
    y: usize,
) -> Result<Traced, Refusal> {
    let size = FrameSize::new(columns, rows)?;
    let blocks = accepted_blocks(CallForm::Default, size, map, data, front, back, 0)?;
    let mut start = 0;
    for block in &blocks {
        let (column, row) = (x.wrapping_sub(block.x), y.wrapping_sub(block.y));
        if column < BLOCK_SIDE && row < BLOCK_SIDE {
            let i = row * BLOCK_SIDE + column;
            let source = block::source(columns, block.code, block.data, block.x, block.y, i);
            let at = |index| (index % size.width(), index / size.width());
            let origin = match source.expect("each pixel of an accepted block has a source") {
                Source::Data(index) => Origin::Byte(start + index),
                Source::Front(index) => Origin::Front(at(index)),
                Source::Back(index) if block.code == FROM_NEW => Origin::New(at(index)),
                Source::Back(index) => Origin::Back(at(index)),
            };
            return Ok(Traced { block: block.number, code: block.code, origin });
        }
        start += block.data.len();
    }
    Err(Refusal::new(refusal::POSITION))
}
