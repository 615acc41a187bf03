//! Where the value of a pixel comes from.

use crate::numbers::kind;
use crate::{ffi, Error, Refusal};

/// A pixel's block, the block's code, and where the pixel's value comes from.
#[derive(Clone, Copy, Debug, PartialEq, Eq, Hash)]
pub struct Traced {
    /// The number of the block, left to right, then down.
    pub block: usize,
    /// Its code in the map, 0 to 15.
    pub code: u8,
    /// The byte or the pixel that the rules read.
    pub origin: Origin,
}

/// What gave a pixel its value: it holds the very value that the pixel has once the packet is drawn.
#[derive(Clone, Copy, Debug, PartialEq, Eq, Hash)]
pub enum Origin {
    /// A byte of the packet's data, counted from its start: a colour, never the bits that chose it.
    Byte(usize),
    /// A pixel of the shown picture.
    Front {
        /// Its column.
        x: usize,
        /// Its row.
        y: usize,
    },
    /// A pixel of the picture drawn on, as it was before the packet.
    Back {
        /// Its column.
        x: usize,
        /// Its row.
        y: usize,
    },
    /// A pixel of the new picture, in an earlier block: ask again for it to go on.
    New {
        /// Its column.
        x: usize,
        /// Its row.
        y: usize,
    },
}

/// The library's answer.
#[repr(C)]
#[derive(Clone, Copy, Debug)]
pub(crate) struct Numbers {
    pub kind: usize,
    pub number: usize,
    pub block: usize,
    pub code: usize,
    /// One of [`source`].
    pub source: usize,
    pub byte: usize,
    pub x: usize,
    pub y: usize,
}

/// What a pixel's value is read from.
mod source {
    pub const BYTE: usize = 0;
    pub const FRONT: usize = 1;
    pub const BACK: usize = 2;
    pub const NEW: usize = 3;
}

/// Tells where the pixel at x, y of a packet's picture comes from. The frame has `columns` by `rows`
/// blocks; `front` and `back` are the pictures before the packet is drawn, as in [`draw`](crate::draw)
/// at place 0. Nothing is drawn.
///
/// # Errors
///
/// Those of a drawing call at place 0, in its order: 6, 8, 10, 12 to 15. Then 22 for a position outside
/// the picture.
///
/// # Examples
///
/// Three blocks: one colour for the left one, the middle one copied from 8 pixels to its left, the
/// right one kept.
///
/// ```
/// use mve::{origin, Error, Origin, Refusal};
///
/// let (map, data, picture) = ([0x3E, 0x01], [7, 0], [5; 192]);
/// let at = |x, y| origin(3, 1, &map, &data, &picture, &picture, x, y);
///
/// let left = at(2, 6)?;
/// assert_eq!((left.block, left.code, left.origin), (0, 0xE, Origin::Byte(0)));
/// let middle = at(10, 6)?;
/// assert_eq!((middle.block, middle.code, middle.origin), (1, 3, Origin::New { x: 2, y: 6 }));
/// assert_eq!(at(23, 0)?.origin, Origin::Back { x: 23, y: 0 });
/// assert_eq!(at(24, 0), Err(Refusal { error: Error::Position, block: 0 }));
/// # Ok::<(), Refusal>(())
/// ```
#[allow(clippy::too_many_arguments)] // a packet, the pictures and a position
pub fn origin(
    columns: usize,
    rows: usize,
    map: &[u8],
    data: &[u8],
    front: &[u8],
    back: &[u8],
    x: usize,
    y: usize,
) -> Result<Traced, Refusal> {
    let answer = ffi::origin(columns, rows, map, data, front, back, x, y);
    answer.read().unwrap_or_else(|| answer.unknown())
}

impl Numbers {
    /// What the numbers say; none where the library does not give such numbers.
    fn read(self) -> Option<Result<Traced, Refusal>> {
        match (self.kind, self.number) {
            (kind::TAKEN, 0) => Some(Ok(self.traced()?)),
            (kind::REFUSED, number) => {
                Some(Err(Refusal { error: Error::from_number(number)?, block: self.block }))
            }
            _ => None,
        }
    }

    fn traced(self) -> Option<Traced> {
        let Numbers { block, byte, x, y, .. } = self;
        let origin = match (self.source, byte, x, y) {
            (source::BYTE, byte, 0, 0) => Origin::Byte(byte),
            (source::FRONT, 0, x, y) => Origin::Front { x, y },
            (source::BACK, 0, x, y) => Origin::Back { x, y },
            (source::NEW, 0, x, y) => Origin::New { x, y },
            _ => return None,
        };
        let code = u8::try_from(self.code).ok().filter(|code| *code < 16)?;
        Some(Traced { block, code, origin })
    }

    /// The library is proved not to give such an answer: another version of it is linked.
    fn unknown(self) -> ! {
        panic!("libmve.a is not of the version that this crate is written for: {self:?}")
    }
}
