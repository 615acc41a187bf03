//! The rows of blocks that a packet touches.

use core::ops::{Range, RangeInclusive};

/// Rows of blocks, counted from 0, from the first to the last one that holds a block other than code
/// 1. A block of code 0 counts, whatever it copies.
///
/// Drawing leaves every pixel of the other rows as it is, so a display that has a copy of the picture
/// needs these rows alone.
#[derive(Clone, Copy, Debug, PartialEq, Eq, Hash)]
pub struct Rows {
    /// The first row.
    pub first: usize,
    /// The last row, which may be the first.
    pub last: usize,
}

impl Rows {
    /// The rows as a range.
    ///
    /// ```
    /// assert_eq!(mve::Rows { first: 2, last: 4 }.range(), 2..=4);
    /// ```
    pub const fn range(self) -> RangeInclusive<usize> {
        self.first..=self.last
    }

    /// The bytes of the rows in a picture of so many columns of blocks: 64 for each block.
    ///
    /// ```
    /// assert_eq!(mve::Rows { first: 2, last: 4 }.bytes(10), 1280..3200);
    /// ```
    pub const fn bytes(self, columns: usize) -> Range<usize> {
        64 * columns * self.first..64 * columns * (self.last + 1)
    }

    /// The fewest rows that hold both.
    ///
    /// ```
    /// use mve::Rows;
    /// let (one, other) = (Rows { first: 2, last: 4 }, Rows { first: 7, last: 8 });
    /// assert_eq!(one.joined(other), Rows { first: 2, last: 8 });
    /// ```
    pub fn joined(self, other: Rows) -> Rows {
        Rows { first: self.first.min(other.first), last: self.last.max(other.last) }
    }
}
