//! Frame sizes.

use crate::seeded::Seeded;

/// Blocks of the widest frame, and of the highest (02, W1).
const MAX_COLUMNS: usize = 80;
const MAX_ROWS: usize = 60;

/// A legal frame size in blocks.
#[derive(Clone, Copy, Debug, PartialEq, Eq)]
pub struct Size {
    /// Blocks in a row.
    pub columns: usize,
    /// Rows of blocks.
    pub rows: usize,
}

impl Size {
    /// A frame of this many blocks.
    pub fn new(columns: usize, rows: usize) -> Size {
        Size { columns, rows }
    }

    /// A frame of a few blocks, now and then one row or column of full length.
    pub fn small(rng: &mut Seeded) -> Size {
        match rng.below(32) {
            0 => Size::new(MAX_COLUMNS, 1),
            1 => Size::new(1, MAX_ROWS),
            _ => Size::new(rng.between(1, 6), rng.between(1, 6)),
        }
    }

    /// Any legal size.
    pub fn any(rng: &mut Seeded) -> Size {
        Size::new(rng.between(1, MAX_COLUMNS), rng.between(1, MAX_ROWS))
    }

    /// Width in pixels.
    pub fn width(self) -> usize {
        self.columns * 8
    }

    /// Height in pixels.
    pub fn height(self) -> usize {
        self.rows * 8
    }

    /// Pixels of a frame.
    pub fn pixels(self) -> usize {
        self.width() * self.height()
    }

    /// Blocks of a frame.
    pub fn blocks(self) -> usize {
        self.columns * self.rows
    }

    /// Left and top pixel of a block.
    pub fn corner(self, block: usize) -> (usize, usize) {
        (block % self.columns * 8, block / self.columns * 8)
    }
}
