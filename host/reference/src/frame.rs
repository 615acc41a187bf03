//! Frame sizes and the grid of 8x8 blocks.

use crate::refusal::{self, Refusal};

/// Width and height of a block in pixels.
pub const BLOCK_SIDE: usize = 8;
/// Pixels of a block.
pub const BLOCK_PIXELS: usize = BLOCK_SIDE * BLOCK_SIDE;

/// Blocks in a row of the widest frame.
const MAX_COLUMNS: usize = 80;
/// Rows of blocks of the highest frame.
const MAX_ROWS: usize = 60;
/// Pixels of the largest frame.
pub const MAX_PIXELS: usize = MAX_COLUMNS * MAX_ROWS * BLOCK_PIXELS;

/// A legal frame size in blocks.
#[derive(Clone, Copy, Debug, PartialEq, Eq)]
pub struct FrameSize {
    columns: usize,
    rows: usize,
}

impl FrameSize {
    /// A frame of so many blocks, or refusal 6: 1 to 80 columns, 1 to 60 rows (02, W1). The limits
    /// are known here and nowhere else.
    pub fn new(columns: usize, rows: usize) -> Result<FrameSize, Refusal> {
        if (1..=MAX_COLUMNS).contains(&columns) && (1..=MAX_ROWS).contains(&rows) {
            Ok(FrameSize { columns, rows })
        } else {
            Err(Refusal::new(refusal::SIZE))
        }
    }

    /// Blocks in a row.
    pub(crate) fn columns(self) -> usize {
        self.columns
    }

    /// Width in pixels.
    pub fn width(self) -> usize {
        self.columns * BLOCK_SIDE
    }

    /// Height in pixels.
    pub fn height(self) -> usize {
        self.rows * BLOCK_SIDE
    }

    /// Pixels of a frame: the bytes of a lent picture that belong to it.
    pub fn pixels(self) -> usize {
        self.blocks() * BLOCK_PIXELS
    }

    /// Blocks of a frame.
    pub fn blocks(self) -> usize {
        self.columns * self.rows
    }

    /// Bytes of a map: one nibble a block, the last one may be spare (01).
    pub fn map_length(self) -> usize {
        self.blocks().div_ceil(2)
    }

    /// Left and top pixel of a block of the frame; blocks run left to right, then down (01).
    pub(crate) fn corner(self, block: usize) -> (usize, usize) {
        let (column, row) = (block % self.columns, block / self.columns);
        (column * BLOCK_SIDE, row * BLOCK_SIDE)
    }
}
